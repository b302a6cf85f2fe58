"""The style of the documents: sentences of at most 40 words and one semicolon, and none of the phrases of tools/style.txt.

tools/check-words calls it. What is between backticks counts as one word; examples that are indented by four spaces or lie
between two lines of ``` are no prose. A table's cell, a heading and an element of a list end a sentence."""
import re

MOST_WORDS = 40
MOST_SEMICOLONS = 1
ELEMENT = re.compile(r"^ *(?:[-*]|\d+\.) +")
CODE = re.compile(r"`[^`]*`")
LINK = re.compile(r"\[([^\]]*)\]\([^)]*\)")
# A word after which a sentence is over, if the next one may begin a sentence.
END = re.compile(r"(?<!\.)[.!?][)\"*'’]*$")
BEGINNING = re.compile(r"[\"(*\[]*[A-Z0-9`‹]")


class Block:
    """What is read as one: the words of a paragraph, an element of a list, a heading or a cell, each with its line."""

    def __init__(self):
        self.words = []

    def add(self, number, text):
        text = LINK.sub(r"\1", CODE.sub(lambda found: "‹code›", text))
        self.words += [(number, word) for word in text.split()]

    def sentences(self):
        """Each sentence: the line on which it begins, and its words."""
        sentence = []
        for here, (number, word) in enumerate(self.words):
            sentence.append((number, word))
            after = self.words[here + 1][1] if here + 1 < len(self.words) else None
            if after is None or (END.search(word) and BEGINNING.match(after)):
                yield sentence[0][0], [word for _, word in sentence]
                sentence = []


def blocks_of(text):
    """The blocks of a document, without its examples."""
    block, fenced, example, element = Block(), False, False, 0
    for number, line in enumerate(text.splitlines(), 1):
        bare = line.strip()
        indent = len(line) - len(line.lstrip())
        if bare.startswith("```"):
            fenced = not fenced
            yield block
            block = Block()
        elif fenced or not bare:
            yield block
            block, example = Block(), True
        elif indent >= element + 4 and example:
            continue
        elif bare.startswith("|"):
            yield block
            block = Block()
            for cell in bare.strip("|").split("|"):
                row = Block()
                row.add(number, cell)
                yield row
        else:
            found = ELEMENT.match(line)
            if found or bare.startswith("#"):
                yield block
                block = Block()
            if found:
                element = len(found.group(0))
            elif indent == 0:
                element = 0
            block.add(number, line[len(found.group(0)):] if found else bare.lstrip("#"))
            example = False
    yield block


def phrases_of(path):
    """The phrases of the list: a pattern and what to write instead."""
    for line in path.read_text().splitlines():
        if line.strip() and not line.startswith("#"):
            pattern, _, instead = line.rpartition(" | ")
            yield re.compile(pattern), instead


def flaws_of(text, phrases):
    """What is wrong with a document: the line, and what it is."""
    for block in blocks_of(text):
        for number, words in block.sentences():
            if all("‹code›" in word for word in words):
                continue  # a list of names is no sentence
            count = sum(1 for word in words if re.search(r"\w", word))
            semicolons = sum(word.count(";") for word in words)
            if count > MOST_WORDS:
                yield number, f"a sentence of {count} words: {' '.join(words[:6])} .."
            if semicolons > MOST_SEMICOLONS:
                yield number, f"a sentence with {semicolons} semicolons: {' '.join(words[:6])} .."
            sentence = " ".join(words)
            for pattern, instead in phrases:
                for found in pattern.finditer(sentence):
                    yield number, f"'{found.group(0)}': {instead}"
