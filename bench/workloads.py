"""Inputs for the measurements, each made from a seed, so that each run measures the same bytes."""
import itertools
import random
import re

VOCABULARY = 50_000
SENTENCE = 20
DOCUMENT = 2_000


def words(seed, tokens):
    """Yields so many numbers of words by a Zipf law over the vocabulary."""
    draw = random.Random(seed)
    weights = list(itertools.accumulate(1.0 / (rank + 1) for rank in range(VOCABULARY)))
    yield from draw.choices(range(VOCABULARY), cum_weights=weights, k=tokens)


def vertical(path, seed, tokens):
    """Writes a vertical of three columns, with documents of 2,000 tokens and sentences of 20."""
    with open(path, "w", encoding="utf-8") as out:
        for place, number in enumerate(words(seed, tokens)):
            if place % DOCUMENT == 0:
                out.write(('</s>\n</doc>\n' if place else "") + f'<doc id="d{place // DOCUMENT}">\n<s>\n')
            elif place % SENTENCE == 0:
                out.write("</s>\n<s>\n")
            out.write(f"w{number}{'s' * (number % 3 == 0)}\t{'NVJDPR'[number % 6]}\tw{number}\n")
        out.write("</s>\n</doc>\n" if tokens else "")


def small_texts(path, texts):
    """Writes a script of so many texts of three tokens."""
    with open(path, "w", encoding="utf-8") as out:
        for number in range(texts):
            out.write(f"text t{number} 3\nthe\tD\tthe\ncat\tN\tcat\nw{number % 997}\tN\tw{number % 997}\n")


def counts(path, seed, queries):
    """Writes a script that adds the vertical and counts so many literals, common and rare ones."""
    with open(path, "w", encoding="utf-8") as out:
        out.write("add corpus vertical\n")
        for number in words(seed, queries):
            out.write(f'count [lemma=="w{number}"]\n')


def draws(seed):
    """Yields the numbers of the engine's generator of texts: a linear congruential one of 64 bits, of which each draw gives the upper 31."""
    state = seed
    while True:
        state = (state * 6364136223846793005 + 1442695040888963407) % 2**64
        yield state >> 33


def generated(path, name, seed, tokens):
    """Writes the vertical of a generated text: sentences of ten tokens, few common lemmas and many rare ones, and a tag that follows from the lemma."""
    draw = draws(seed)
    with open(path, "w", encoding="utf-8") as out:
        out.write(f'<doc id="{name}">\n')
        for place in range(tokens):
            if place % 10 == 0:
                out.write(("</s>\n" if place else "") + "<s>\n")
            first, second, third = next(draw), next(draw), next(draw)
            lemma = (first % 1000) * (second % 1000) // 1000
            out.write(f"l{lemma}{'s' * (third % 2)}\t{'NJVD'[lemma % 4]}\tl{lemma}\n")
        out.write(("</s>\n" if tokens else "") + "</doc>\n")


def many_texts(path, texts, tokens, begin="", front=()):
    """Writes a script of so many texts of a few tokens, each a segment of its own, behind these lines. Each text has these lines before its tokens."""
    draw = draws(5)
    with open(path, "w", encoding="utf-8") as out:
        out.write(begin)
        for number in range(texts):
            out.write(f"text t{number} {len(front) + tokens}\n")
            out.writelines(f"{line}\n" for line in front)
            for _ in range(tokens):
                lemma = (next(draw) % 1000) * (next(draw) % 1000) // 1000
                out.write(f"l{lemma}\t{'NJVD'[lemma % 4]}\tl{lemma}\n")


def refused_texts(path, texts, tokens, front=()):
    """Writes the script of `many_texts` with a last line in each text that is no UTF-8, so that each is read and none is held."""
    many_texts(path, texts, tokens, "", front)
    with open(path, "rb") as held:
        script = held.read()
    with open(path, "wb") as out:
        out.write(re.sub(rb"\n(?=text |\Z)", b"\xff\n", script))


def small_files(folder, texts, tokens):
    """Writes the texts of `many_texts` as files, those of `refused_texts` too, and a script that adds each."""
    for kind, write in ("adds", many_texts), ("reads", refused_texts):
        write(folder / kind, texts, tokens)
        bodies = re.split(rb"(?m)^text .*\n", (folder / kind).read_bytes())[1:]
        for number, body in enumerate(bodies):
            (folder / f"{kind}{number}").write_bytes(body)
        (folder / kind).write_text("".join(f"add t{number} {kind}{number}\n" for number in range(texts)))


def whole_runs(tokens):
    """The scripts of whole runs, by what they do: texts are added, and asked for literals, patterns, sequences, sketches, frequencies and collocations."""
    one = f"generate g1 1 {tokens}\n"
    four = "".join(f"generate g{seed} {seed} {tokens}\n" for seed in range(1, 5))
    literals = itertools.islice((number for number in words(3, 10_000) if number < 1_000), 1_000)
    patterns = (form % digit for digit in range(10) for form in PATTERNS)
    sketches = ["grammar six.wsdef"] + [f"sketch 1 20 {lemma}" for lemma in LEMMAS] + [f"thes 20 {lemma}" for lemma in LEMMAS]
    return {
        "add": "add corpus vertical\n",
        "four generate": four,
        "1,000 literals over them": four + "".join(f'count [lemma=="l{number}"]\n' for number in literals),
        "50 patterns over them": four + "".join(f"count {pattern}\n" for pattern in patterns),
        "ten sequences over one": one + "".join(f"count {sequence}\n" for sequence in SEQUENCES),
        "six relations over one": one + "".join(f"{line}\n" for line in sketches),
        "five reports over one": one + "".join(f"{report}\n" for report in REPORTS),
    }


def asked(path, begin, questions):
    """Writes a script that begins with what another file has, and then asks questions."""
    with open(begin, "rb") as front, open(path, "wb") as out:
        out.write(front.read())
        out.writelines(f"{question}\n".encode() for question in questions)


# A sketch grammar for generated texts: six relations, one with a gap, one that a third word names, and one of single words with a pattern of lemmas.
GRAMMAR = """*STRUCTLIMIT s
*DEFAULTATTR tag
*DUAL
=modifier/modifies
2:"J" 1:"N"
*DUAL
=object/object_of
1:"V" []{0,2} 2:"N"
*DUAL
=subject/subject_of
2:"N" [tag=="D"]{0,1} 1:"V"
*SYMMETRIC
=beside
1:"N" [tag=="D"] 2:"N"
*TRINARY
=by_%s
1:"V" 3:"D" 2:"N"
*UNARY
=common
1:[tag=="N" & lemma="l[0-9]{1,2}"]
"""

# Lemmas of generated texts from the most frequent one to rare ones, nouns, verbs and adjectives.
LEMMAS = [f"l{number}" for number in (0, 1, 2, 4, 10, 16, 40, 50, 61, 100, 150, 200, 350, 400, 501, 550, 600, 750, 800, 900)]


# Sequences of generated texts: with repeated tokens, gaps, filters and a condition.
SEQUENCES = (
    '[tag="J"]+ [tag="N"]',
    '[tag="J"] []{0,4} [tag="V"]',
    '[tag="J"] []{0,4} [tag="V"] within <s/>',
    '<s/> containing [tag="N"]{3}',
    '1:[tag="N"] []{0,3} 2:[tag="J"] & 1.lemma = 2.lemma',
    '[lemma=="l17"] [lemma=="l3"]',
    '[lemma="l1.*"] [tag="N"]',
    '[tag="D"] [tag="J"]? [tag="N"]',
    '[]{0,3} [lemma=="l7"]',
    '[tag="V"] [tag!="N"]{1,3} [tag="N"]',
)

# Patterns of generated texts, in which a digit stands: the beginning of a lemma, the end of a word, a class, a choice, and one beside a tag.
PATTERNS = ('[lemma="l%d.*"]', '[word=".*%ds"]', '[lemma="l[%d-9]{2}"]', '[lemma="l1%d|l2.5"]', '[lemma="l%d.*" & tag="N"]')

# Frequency lists and collocations of generated texts.
REPORTS = ("freq lemma 0 []", 'freq tag 1 [tag="N"]', 'freq word 0 [tag="V"]', "colloc lemma -3 3 5 []", 'colloc lemma -3 3 5 [tag="N"]')


def grammar(path):
    """Writes the sketch grammar."""
    with open(path, "w", encoding="utf-8") as out:
        out.write(GRAMMAR)
