"""Writes the spool that `make SEED COUNT` prints, to compare the two by their bytes.

Usage: make_made.py SEED COUNT
"""
import sys


def facts(node, value, stamp):
    return ('{"certname":"%s","environment":"production","values":{"k":%d},"producer_timestamp":"%s","producer":"m"}'
            % (node, value, stamp))


def catalog(node, number, stamp):
    return ('{"certname":"%s","version":"1","environment":"production","transaction_uuid":null,"catalog_uuid":null,'
            '"code_id":null,"job_id":null,"producer_timestamp":"%s","producer":"m","edges":[],'
            '"resources":[{"type":"Class","title":"c%d","exported":false,"file":null,"line":null,"tags":["class"],'
            '"parameters":{}}]}' % (node, stamp, number))


def report(node, number, stamp):
    return ('{"certname":"%s","environment":"production","puppet_version":"8.0.0","report_format":12,'
            '"configuration_version":"%d","start_time":"%s","end_time":"%s","producer_timestamp":"%s","producer":"m",'
            '"noop":false,"status":"changed","transaction_uuid":null,"resources":[],"logs":[],"metrics":[]}'
            % (node, number, stamp, stamp, stamp))


def items(seed, count):
    number = seed
    for i in range(count):
        number = (number * 6364136223846793005 + 1442695040888963407) % 2 ** 64
        node = "node%d" % (number // 2 ** 33 % 50)
        second = number // 2 ** 40 % 86400
        stamp = "2024-05-01T%02d:%02d:%02dZ" % (second // 3600, second // 60 % 60, second % 60)
        if i % 4 == 2:
            head, payload = "replace_catalog 9", catalog(node, i % 7, stamp)
        elif i % 4 == 3:
            head, payload = "store_report 8", report(node, i, stamp)
        else:
            head, payload = "replace_facts 5", facts(node, i, stamp)
        yield "%s %d\n%s\n" % (head, len(payload), payload)


if __name__ == "__main__":
    for text in items(int(sys.argv[1]), int(sys.argv[2])):
        sys.stdout.write(text)
