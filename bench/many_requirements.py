#!/usr/bin/env python3
"""Prints a document of requirements on N devices, five of each, which can be met together; with `conflict` as a further word one
requirement on the last device that two others of it forbid.

    many_requirements.py N [conflict] > DOCUMENT

Each device is asked for something, answers within three steps, is busy while it works, and hands over to the next one of its four. N is
a multiple of four.
"""
import sys


def item(section, name, sentence, formula):
    print('[[%s]]\nname = "%s"\ntext = "%s"\nformula = "%s"\n' % (section, name, sentence, formula))


def device(k):
    after = k // 4 * 4 + (k + 1) % 4
    item("require", "answer %d" % k, "What is asked of device %d is done within three steps." % k, "G (ask_%d -> F[0,3] done_%d)" % (k, k))
    item("require", "busy %d" % k, "Device %d is busy until it is done." % k, "G (ask_%d -> busy_%d W done_%d)" % (k, k, k))
    item("require", "cause %d" % k, "Nothing is done that was not asked for.", "G (done_%d -> O[0,3] ask_%d)" % (k, k))
    item("require", "rest %d" % k, "Behind each answer of device %d there is a step of rest." % k, "G (done_%d -> X !ask_%d)" % (k, k))
    item("require", "hand over %d" % k, "Device %d hands over to device %d in the end." % (k, after), "G (done_%d -> X F ask_%d)" % (k, after))


def main(words):
    count = int(words[0])
    item("assume", "begun", "Device 0 is asked at the start.", "ask_0")
    for k in range(count):
        device(k)
    if "conflict" in words:
        item("require", "never ready", "Device %d is never done." % (count - 1), "G !done_%d & F ask_%d" % (count - 1, count - 1))
    item("allow", "all at once", "All devices are busy in one step.", "F (%s)" % " & ".join("busy_%d" % k for k in range(count)))
    item("ensure", "again and again", "Device 0 is done again and again.", "G F done_0")


if __name__ == "__main__":
    main(sys.argv[1:])
