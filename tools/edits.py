#!/usr/bin/env python3
"""Writes the must-fail edits of an earlier commit in the text that their files have today.

usage: tools/edits.py COMMIT [--write] [CRATE..]     run at the top; without --write it only says what it would write

Each pair of lines `old:` and `new:` names a text that stands once in a file. Where COMMIT's text has been respelt since, the pair is
no edit any more. For each edit of COMMIT this finds the place of its old text in COMMIT's file, the corresponding place in today's file
(by the tokens of both), and writes today's text of that place, with the same tokens exchanged. A pair that still stands at that place
is left as it is. `BY_HAND` has the tokens that no rule respells; an edit that is named there is only looked at, and kept as it stands.

It says of each edit: `as it was`, `respelt`, or what is wrong with it, and ends with 1 where something is.
"""

import difflib
import os
import re
import subprocess
import sys

# Names between letters keep their hyphens, as `end-of` had them; all else is one sign a token.
TOKEN = re.compile(r"[^\W_][\w'′]*(?:[-·][^\W\d_][\w'′]*)*|_[\w'′]+|\S", re.UNICODE)
# words of COMMIT's lines that today's files don't have
WORDS = {"getD": "get_or", "_+_": "◌+◌", "_-_": "◌-◌", "_≡_": "◌≡◌"}
# edits that were written by hand: here the word of `Option` that a list's word of the same name stands beside
BY_HAND = {"search/definition_far_up_to_the_match"}


def git(*args):
    it = subprocess.run(("git",) + args, capture_output=True, text=True)
    return it.stdout if it.returncode == 0 else None


def read(path):
    if not os.path.exists(path):
        return None
    with open(path, encoding="utf-8") as file:
        return file.read()


def respelt(text):
    """The same in today's spelling: names, projections, what a clause says of its result and of what a reference held."""
    it = re.search(r"λ (\w+)\. ⌜", text)
    if it:
        text = re.sub(r"(?<![\w.])%s(?![\w'])" % it[1], "result", text.replace(it[0], "⌜"))
    text = re.sub(r" ?[⌜⌝](?= )", "", text)
    text = re.sub(r"(?<=[a-z])-(?=[a-z])", "_", text)
    text = re.sub(r"Rattle·(\w+)·specs\.specs\.", r"Rattle.\1.specs.", text).replace("Rattle·", "Rattle.")
    text = re.sub(r"\(now \((\w+) \.entry\)\)", r"\1.now", text)
    text = re.sub(r"(?<=[\w)]) \.(?=[a-z])", ".", text)
    text = re.sub(r"(?<![\w)])\(((?:[a-z]\w*)(?:\.[a-z]\w*)+)\)", r"\1", text)
    for old, new in WORDS.items():
        text = re.sub(r"(?<![\w_])" + re.escape(old) + r"(?![\w_])", new, text)
    return text


def tokens(text):
    return [(it[0], it.start(), it.end()) for it in TOKEN.finditer(text)]


def key(token):
    """What a token is compared by: the spelling of names has changed in hyphens and capitals."""
    return WORDS.get(token, token.replace("-", "_").replace("_", "").lower())


class Alignment:
    """Which tokens of one text stand for which of the other."""

    def __init__(self, old, new):
        self.old, self.new = tokens(old), tokens(new)
        match = difflib.SequenceMatcher(None, [key(it[0]) for it in self.old], [key(it[0]) for it in self.new], autojunk=False)
        # by a token's place in the old text: where its counterpart begins in the new one; by the place behind it: where that ends
        self.left, self.right = {}, {}
        for _, a, b, c, d in match.get_opcodes():
            for i in range(a, b):
                same = b - a == d - c
                self.left[i] = c + i - a if same else c
                self.right[i + 1] = c + i - a + 1 if same else d

    def span(self, start, end):
        """The tokens of the old text, from one to before another, in which the characters from start to end stand."""
        inside = [i for i, it in enumerate(self.old) if it[1] < end and start < it[2]]
        return inside[0], inside[-1] + 1


def unbalanced(text):
    depth = 0
    for sign in text:
        depth += (sign in "([{") - (sign in ")]}")
        if depth < 0:
            return True
    return depth != 0


def exchange(was, today, old, new):
    """Today's pair for COMMIT's pair, or a word on why there is none."""
    if was.count(old) != 1:
        return None, "stood %d times" % was.count(old)
    start = was.index(old)
    both = Alignment(was, today)
    a, b = both.span(start, start + len(old))
    c, d = both.left[a], both.right[b]
    if c >= d:
        return None, "its text is gone: " + old
    if today.count(old) == 1:
        at = today.index(old)
        if both.new[c][1] < at + len(old) and at < both.new[d - 1][2]:
            return (old, respelt(new)), "as it was"
    if today.count(respelt(old)) == 1:
        at = today.index(respelt(old))
        if both.new[c][1] < at + len(respelt(old)) and at < both.new[d - 1][2]:
            return (respelt(old), respelt(new)), "respelt"
    # The tokens of the pair that are exchanged; the pair's own ends may lie within a token.
    first, last = [it[0] for it in both.old[a:b]], [it[0] for it in tokens(new)]
    # brackets that today's text has more of belong to it where it would not be whole without
    line = today[: both.new[c][1]].rfind("\n") + 1
    stop = (today + "\n").index("\n", both.new[d - 1][2])
    if unbalanced(today[both.new[c][1] : both.new[d - 1][2]]) and not unbalanced(old):
        for more in range(1, 3):
            if both.new[c - more][0] == "(" and line <= both.new[c - more][1] and not unbalanced(today[both.new[c - more][1] : both.new[d - 1][2]]):
                c -= more
                break
    pieces, at, texts = [], both.new[c][1], tokens(new)
    for kind, i, j, k, m in difflib.SequenceMatcher(None, first, last, autojunk=False).get_opcodes():
        if kind == "equal":
            continue
        x = both.left[a + i] if a + i < b else d
        y = both.right[a + j] if j > i else x
        # the blanks on both sides are today's where tokens stand for tokens, else those of the new line
        if j > i and m > k:
            before = today[both.new[x - 1][2] : both.new[x][1]] if x > c else ""
            after = today[both.new[y - 1][2] : both.new[y][1]] if y < d else ""
        else:
            before = new[texts[k - 1][2] : texts[k][1] if k < len(texts) else None] if k > 0 and x > c else ""
            after = new[texts[m - 1][2] : texts[m][1]] if m < len(texts) and y < d and m > k else ""
        words = respelt(new[texts[k][1] : texts[m - 1][2]]) if m > k else ""
        pieces.append(today[at : both.new[x - 1][2] if x > c else both.new[c][1]] + before + words + after)
        at = both.new[y][1] if y < d else both.new[d - 1][2]
    end = both.new[d - 1][2]
    pieces.append(today[at:end])
    here, changed = today[both.new[c][1] : end], "".join(pieces)
    if "\n" in here:
        return None, "its text is on two lines today: " + old
    # the rest of a line where the text alone stands more than once
    if today.count(here) != 1:
        head, tail = today[line : both.new[c][1]], today[end:stop]
        here, changed = head + here + tail, head + changed + tail
        if today.count(here) != 1:
            return None, "stands %d times today: %s" % (today.count(here), here)
    return (here, changed), "respelt"


def pairs(text):
    """The pairs of an edit: the file, the numbers of both lines, and both texts."""
    lines, file, old = text.split("\n"), None, None
    for n, line in enumerate(lines):
        if line.startswith("file: "):
            file = line[6:]
        elif line.startswith("old: "):
            old = n
        elif line.startswith("new:"):
            yield file, old, n, lines[old][5:], line[4:].removeprefix(" ")


def turned(commit, crate, name):
    """COMMIT's edit in today's text, or None; and what is to be said of it. Later pairs apply to what the earlier ones made."""
    path = "crates/%s/must-fail/%s" % (crate, name)
    text = git("show", commit + ":" + path)
    lines, was, today, said = text.split("\n"), {}, {}, "as it was"
    for file, at_old, at_new, old, new in pairs(text):
        source = "crates/%s/%s" % (crate, file)
        if file not in was:
            was[file], today[file] = git("show", commit + ":" + source), read(source)
        if today[file] is None:
            return None, "there is no file " + source
        pair, word = exchange(was[file], today[file], old, new)
        if pair is None:
            return None, word
        if pair != (old, new):
            said = "respelt"
        lines[at_old], lines[at_new] = "old: " + pair[0], ("new: " + pair[1]).rstrip()
        was[file], today[file] = was[file].replace(old, new), today[file].replace(*pair)
    return "\n".join(lines), said


def stands(crate, name):
    """None where each old text of the edit stands once in today's files, else what is wrong."""
    texts = {}
    for file, _, _, old, new in pairs(read("crates/%s/must-fail/%s" % (crate, name))):
        if file not in texts:
            texts[file] = read("crates/%s/%s" % (crate, file)) or ""
        if texts[file].count(old) != 1:
            return "stands %d times today: %s" % (texts[file].count(old), old)
        texts[file] = texts[file].replace(old, new)
    return None


def main():
    if len(sys.argv) < 2 or sys.argv[1].startswith("-"):
        sys.exit(__doc__)
    commit, write, only = sys.argv[1], "--write" in sys.argv, [it for it in sys.argv[2:] if it != "--write"]
    wrong = 0
    for path in git("ls-tree", "-r", "--name-only", commit, "crates").split("\n"):
        it = re.fullmatch(r"crates/(\w+)/must-fail/(\S+\.edit)", path)
        if not it or (only and it[1] not in only):
            continue
        if "%s/%s" % (it[1], it[2][:-5]) in BY_HAND:
            said = stands(it[1], it[2])
            print(path, "by hand" if said is None else "by hand, and no edit: " + said)
            wrong += said is not None
            continue
        text, said = turned(commit, it[1], it[2])
        if text is None:
            wrong += 1
            print(path, "NOT TURNED: " + said)
            continue
        print(path, said)
        if said != "as it was":
            for file, _, _, old, new in pairs(text):
                print("    old: %s\n    new: %s" % (old, new))
        if write and text != read(path):
            with open(path, "w", encoding="utf-8") as file:
                file.write(text)
    sys.exit(1 if wrong else 0)


main()
