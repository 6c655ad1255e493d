"""Words of several languages by chance. Short and common ones are taken more often."""
import random


def vocabulary(consonants, vowels, ends=""):
    """Returns words of these letters, about from the shortest to the longest."""
    rng, found, made_ones = random.Random(f"{consonants}{vowels}"), {}, 0
    while len(found) < 6000:
        syllables, made_ones = 1 + made_ones // 2000, made_ones + 1
        made = "".join(rng.choice(consonants) * (rng.random() < 0.85) + rng.choice(vowels) for _ in range(syllables))
        found[made + (rng.choice(ends) if ends and rng.randrange(2) else "")] = None
    return list(found)


LATIN = vocabulary("b c d f g h l m n p r s t v st tr pl w".split(), "aeiou", "nrst")
ACCENTED = vocabulary("b d f g k l m n r s t z w sch \u0142 \u0161 \u00e7".split(), "a e i o u \u00fc \u00e9 \u00e4 \u00f3 ie".split(), "nrst")
RUSSIAN = vocabulary("\u0431\u0432\u0433\u0434\u0437\u043a\u043b\u043c\u043d\u043f\u0440\u0441\u0442\u0447\u0448", "\u0430\u0435\u0438\u043e\u0443\u044b\u044f", "\u043b\u043d\u0440\u0442\u044c")
ARABIC = vocabulary("\u0628\u062a\u062c\u062d\u062f\u0631\u0633\u0634\u0635\u0639\u0641\u0642\u0643\u0644\u0645\u0646\u0647", ["\u0627", "\u0648", "\u064a", "", "", "\u064e", "\u0650"], "\u0629\u0646\u0645")
HEBREW = vocabulary("\u05d1\u05d2\u05d3\u05d4\u05d6\u05d7\u05d8\u05db\u05dc\u05de\u05e0\u05e1\u05e2\u05e4\u05e6\u05e7\u05e8\u05e9\u05ea", ["\u05d0", "\u05d5", "\u05d9", "", "", "\u05b8"], "\u05ea\u05dd\u05df")

THAI = vocabulary("ก ข ค ง จ ช ด ต ท น บ ป พ ม ย ร ล ว ส ห อ เป เข แล แต โด ไป ไม ให ปร คร".split(), ["า", "ี", "ู", "ะ", "ั", "่า", "้", "ือ", "่อ", "้า", ""], "กงนมยรบ")
HINDI = vocabulary("क ख ग च ज ट ड त थ द ध न प फ ब भ म य र ल व श स ह प्र स्त त्र न्द".split(), ["ा", "ि", "ी", "ु", "े", "ो", "ं", "ै", "", ""], "नरतलकं")


def word(rng, of=None):
    """Returns a word of a vocabulary."""
    of = of or LATIN
    return of[int(len(of) * rng.random() ** 3)]


def words(rng, least, most, of=None):
    return " ".join(word(rng, of) for _ in range(rng.randint(least, most)))


def camel(rng, most, of=None):
    return "".join(word(rng, of).capitalize() for _ in range(rng.randint(1, most)))


def snake(rng, most=3):
    return "_".join(word(rng) for _ in range(rng.randint(1, most)))


def number(rng, digits=4):
    return str(rng.randrange(10 ** rng.randint(1, digits)))
