#!/usr/bin/env python3
"""Changes of documents: at odd places, with numbers in any form, and those that are not understood. A line `ok CASE` for each case, or
`not ok CASE` followed by what was expected and what came.
usage: tests/editor_changes.py PROGRAM DEVDRY    the language server, and devdry"""
import sys

from editor import HWDB, INVALID_PARAMS, RULES, begun, client_close, codes, error_of, place, run, same

OUT_OF_STEP = "out of step: a change of this file was not understood, so open this file again"


def edits():
    """Changes at odd places: what is typed there, and the rows of the outline after it, with how many units each has."""
    for encoding, rows in (("utf-16", (("within a surrogate pair", (0, 2, 2), [("a|\U0001F600b", 5), ("c", 1), ("d", 1)]),
                                       ("from within a pair to its end", (0, 2, 3), [("a|b", 3), ("c", 1), ("d", 1)]))),
                           ("utf-8", (("within a character", (0, 3, 3), [("a|\U0001F600b", 7), ("c", 1), ("d", 1)]),
                                      ("from one to its end", (0, 1, 5), [("a|b", 3), ("c", 1), ("d", 1)]))),
                           ("utf-16", (("past the end of a row: before CR LF", (0, 99, 99), [("a\U0001F600b|", 5), ("c", 1), ("d", 1)]),
                                       ("past the end of a row: before CR", (1, 99, 99), [("a\U0001F600b", 4), ("c|", 2), ("d", 1)]),
                                       ("past the last row", (99, 0, 0), [("a\U0001F600b", 4), ("c", 1), ("d|", 2)]),
                                       ("an end of a row", (0, 4, 0, 1), [("a\U0001F600b|c", 6), ("d", 1)]),
                                       ("everything", (0, 0, 0, 99), [("|", 1)])))):
        for case, given, expected in rows:
            client = begun(encodings=[encoding])
            client.open(HWDB, "a\U0001F600b\r\nc\rd")
            client.change(HWDB, [{"range": place(*given), "text": "|"}])
            got = client.ask("documentSymbol", HWDB)["result"]
            same(f"a change {case}, in {encoding}", expected, [(it["name"], it["range"]["end"]["character"]) for it in got])
            client.end()


def raw_change(client, start, end, text="|"):
    """Changes a database by a range whose numbers are written as they are given."""
    places = ",".join(f'"{name}":{{"line":{line},"character":{character}}}' for name, (line, character) in (("start", start), ("end", end)))
    content = (f'{{"jsonrpc":"2.0","method":"textDocument/didChange","params":{{"textDocument":{{"uri":"{HWDB}","version":2}},'
               f'"contentChanges":[{{"range":{{{places}}},"text":"{text}"}}]}}}}').encode()
    client.write(b"Content-Length: %d\r\n\r\n%b" % (len(content), content))
    return client.read()


def numbers():
    """Numbers of JSON that are whole are those numbers, however they are written, and a place past the end is the end."""
    for start, end, expected in ((("1.0", "1"), ("1.0", "2"), ["abc", "d|f", "ghi"]), (("1e0", "10e-1"), ("1e0", "20E-1"), ["abc", "d|f", "ghi"]),
                                 (("0.01E+2", "0.0"), ("1", "-0"), ["abc", "|def", "ghi"]), (("1", "0e99"), ("1", "0.0e-99"), ["abc", "|def", "ghi"]),
                                 (("0", "2147483648"), ("0", "4294967295"), ["abc|", "def", "ghi"]), (("1", "1e30"), ("1", "1e30"), ["abc", "def|", "ghi"]),
                                 (("1", "99999999999999999999"), ("1", "1e999999999999999999999"), ["abc", "def|", "ghi"]),
                                 (("4294967295", "0"), ("4294967296", "1"), ["abc", "def", "ghi|"]), (("1e30", "0"), ("1e30", "7"), ["abc", "def", "ghi|"]),
                                 (("0", "1"), ("99999999999999999999", "0"), ["a|"]), (("18446744073709551616", "0"), ("1.8446744073709551617e19", "0"), ["abc", "def", "ghi|"])):
        client = begun()
        client.open(HWDB, "abc\ndef\nghi")
        raw_change(client, start, end)
        same(f"a change from {start} to {end}", expected, [it["name"] for it in client.ask("documentSymbol", HWDB)["result"] or []])
        client.end()
    client = begun()
    client.open(RULES, 'KERNEL=="a"\n')
    same("a place that is asked about with a point", place(0, 0, 6), client.ask("hover", RULES, 0.0, 1.0)["result"]["range"])
    same("a place that is asked about past the end", None, client.ask("hover", RULES, 4294967296, 1e30)["result"])
    same("a place that is asked about with a fraction", INVALID_PARAMS, error_of(client.ask("hover", RULES, 0, 0.5)))
    got = client.open(RULES, "X", version=7.0)
    same("a version with a point", 7, got["params"]["version"])
    same("a version that no number of the protocol is", None, client.change(RULES, [], version=1e30)["params"].get("version"))
    client.end()


def told_out_of_step(told):
    """Whether a report is the one that says that a document is out of step."""
    return [(it["message"], it["range"], it["severity"]) for it in told["params"]["diagnostics"]] == [(OUT_OF_STEP, place(0, 0, 0), 1)]


def out_of_step():
    """Changes that are not understood: from then on nothing is answered from the text that the editor no longer has."""
    good, whole = {"range": place(0, 0, 0), "text": "#"}, {"text": 'KERNEL=="k", TAGG+="b"\n'}
    bad = {"range": {"start": {"line": -1, "character": 0}, "end": {"line": 0, "character": 0}}, "text": "x"}
    for case, changes in (("no array", {}), ("no object", [7]), ("no text", [{}]), ("a text that is no string", [{"text": 1}]), ("null as a text", [{"text": None}]),
                          ("a range that is none", [{"range": 1, "text": "x"}]), ("a range without an end", [{"range": {"start": bad["range"]["end"]}, "text": "x"}]),
                          ("a line below zero", [bad]), ("a character with a fraction", [{"range": place(0, 1.5, 2), "text": "x"}]),
                          ("a small fraction", [{"range": place(0, 1e-9, 2), "text": "x"}]), ("a number as a string", [{"range": place("0", 0, 0), "text": "x"}]),
                          ("one of several", [good, bad, good]), ("the last of several", [whole, good, bad])):
        client = begun()
        client.open(RULES, 'KERNEL=="k", SYMLNK+="a"\n')
        client.open(HWDB, "usb:v1D6B*\n ID_A=1\n")
        same(f"changes that are not understood are told: {case}", True, told_out_of_step(client.change(RULES, changes)))
        client.notify("textDocument/didChange", {"textDocument": {"uri": RULES, "version": 3}, "contentChanges": [good]})
        asked = [client.ask(method, RULES, 0, 0, context={"diagnostics": []}, range=place(0, 0, 9), options={})
                 for method in ("hover", "completion", "definition", "references", "documentSymbol", "codeAction", "formatting")]
        same(f"nothing is answered then: {case}", [INVALID_PARAMS] * 7, [error_of(it) for it in asked])
        same(f"other documents are in step: {case}", ["usb:v1D6B*"], [it["name"] for it in client.ask("documentSymbol", HWDB)["result"]])
        same(f"a change after it is not answered: {case}", ["V2"], codes(client.open(RULES, 'KERNEL=="k", SYMLNK+="a"\n', version=4)))
        same(f"opened again it is in step: {case}", [], codes(client.change(RULES, [{"range": place(0, 17, 17), "text": "I"}], version=5)))
        client.end()
    client = begun()
    client.open(RULES, 'KERNEL=="k", SYMLNK+="a"\n')
    client.change(RULES, [bad])
    same("another change that is not understood is told again", True, told_out_of_step(client.change(RULES, [bad])))
    same("a whole text brings it back in step", ["V2"], codes(client.change(RULES, [whole], version=9)))
    same("with what follows it", [], codes(client.change(RULES, [{"range": place(0, 16, 17), "text": ""}])))
    client.change(RULES, [bad])
    same("a whole text after a part, and a part after it", [], codes(client.change(RULES, [good, whole, {"range": place(0, 16, 17), "text": ""}])))
    client.notify("textDocument/didOpen", {"textDocument": {"uri": RULES, "version": 10}})
    same("opened again without a text it is out of step", True, told_out_of_step(client.read()))
    same("nothing is answered then", INVALID_PARAMS, error_of(client.ask("hover", RULES, 0, 0)))
    same("and a whole text brings it back", ["V2"], codes(client.change(RULES, [whole], version=11)))
    client.change(RULES, [bad])
    same("closed while it is out of step", [], client_close(client, RULES))
    client.notify("textDocument/didChange", {"textDocument": {"uri": RULES}, "contentChanges": [whole]})
    client.notify("textDocument/didChange", {"textDocument": {"uri": RULES}, "contentChanges": [bad]})
    same("closed it is neither in step nor out of it", INVALID_PARAMS, error_of(client.ask("hover", RULES, 0, 0)))
    same("the status", 0, client.end())


if __name__ == "__main__":
    sys.exit(run(edits, numbers, out_of_step))
