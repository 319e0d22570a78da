"""Lists of words that are refused, which .ci/rows asks: before each the index of the first bad word, or the count of words where one is missing."""
import re
import shlex

REFUSED_WORDS = r"""
0
0 fly
0 Follow
0 --net main follow
0 ''
2 follow --net
2 follow --feed
4 follow --net main --feed
2 follow --net test
2 follow --net Main
2 follow --net ''
2 follow --net mainnet --net main
2 follow --feed ''
4 follow --net main --feed ''
3 follow --net main --net main
3 follow --feed a --feed b
5 follow --net main --feed a --net regtest
5 follow --net main --feed a --feed
1 follow --network main
1 follow -net main
1 follow main
1 follow ''
1 follow follow
3 follow --feed a b
3 follow --feed a --Net main
0 proves
2 prove --watch
3 prove --watch w --watch w
3 follow --watch w --watch w
1 prove --from s
2 prove --to
4 prove --net main --to ''
5 prove --to a --feed f --to b
1 prove 7
0 audits
1 audit --to a
1 audit --from s
4 audit --feed f --watch
3 audit --watch w --watch w
1 ticket
1 ticket 07 --from s
1 ticket 18446744073709551616
2 ticket 7
4 ticket 7 --to t
2 ticket 7 --feed f
1 check
3 check --feed f
2 check --from
1 check --to t
5 recheck --net main --watch w
3 recheck --from t --to a
3 recheck --from t --from t
1 relay
1 relay 0
1 relay 101
1 relay 01
2 relay 1 --to t
1 upgrade
1 upgrade other
1 upgrade --feed f
2 upgrade feed --from s
3 upgrade feed --to
2 upgrade state
4 upgrade state --to t
3 upgrade state --from
3 upgrade state --from ''
4 upgrade state --from s --from s
2 upgrade state --net main --from s
1 order
1 order 00000000019d6689c085ae165831e934ff763ae46a2a6c172b3f1b60a8ce26f
1 order 0000000000019d6689c085ae165831e934ff763ae46a2a6c172b3f1b60a8ce26f
1 order 000000000019d6689c085ae165831e934ff763ae46a2a6c172b3f1b60a8ce26F
1 order g00000000019d6689c085ae165831e934ff763ae46a2a6c172b3f1b60a8ce26f
2 order 000000000019d6689c085ae165831e934ff763ae46a2a6c172b3f1b60a8ce26f --watch w
2 order 000000000019d6689c085ae165831e934ff763ae46a2a6c172b3f1b60a8ce26f 000000000019d6689c085ae165831e934ff763ae46a2a6c172b3f1b60a8ce26f
2 follow --from
3 follow --from s --from s
3 follow --from s --net main
3 follow --net main --from s
3 follow --from s --watch w
3 follow --watch w --from s
1 gen
2 gen 7
1 gen 07 3
1 gen 00 3
1 gen +7 3
1 gen -7 3
1 gen '' 3
1 gen 7a 3
1 gen ' 7' 3
1 gen 18446744073709551616 3
1 gen --net main
2 gen 7 03
2 gen 7 100001
2 gen 7 99999999999999999999
3 gen 7 3 4
3 gen 7 3 --feed f
4 gen 7 3 --to
4 gen 7 3 --to ''
5 gen 7 3 --to a --to b
3 follow --to a --to
"""


def refused_words():
    """Each list, and where it goes wrong."""
    for line in REFUSED_WORDS.strip().splitlines():
        at, *words = shlex.split(line)
        yield words, int(at)


def told_words(text):
    """The lists of the table in docs/FORMATS.md, with their lines."""
    tip = "0" * 64
    for words, line in re.findall(r"^\| (`[^|]*`|none) \| `(words \d+)` \|$", text, re.MULTILINE):
        words = [] if words == "none" else words.strip("`").split()
        yield [tip if word == "TIP" else word for word in words], line
