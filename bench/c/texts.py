#!/usr/bin/env python3
"""Makes the texts that calls are timed on: words of several languages in no order, the same in each run.

    bench/c/texts.py FOLDER

It writes the texts of each kind into the folder, for bench/c/utf8.c: a text of 1 MiB, texts of 4 KiB, texts of 5
octets, and beside each file one with what CPython's decoder, with errors="replace", shows them as. In a file each text
is after its length in four octets, the first the highest.

A processor that guesses branches learns a text of 4 KiB that is read again and again. So there are many of each size,
which are read in turn, and no order in them.
"""
import pathlib
import random
import struct
import sys
from typing import NamedTuple

LARGE = 1 << 20
SMALL = 1 << 12
SMALL_COUNT = 64
TINY = 5
TINY_COUNT = 4096

ENGLISH = """a an and are as at be because between but by can could day did do each every first for from go
good great had has have he her here him his how I if in into is it its just know like little long look made
make man many may more most my never no not now of on one only or other our out over own part people place
said same see she should so some state such take than that the their them then there these they thing think
this those through time to two under until up upon us use very was water way we well were what when where
which while who will with within without work world would year you your Internet protocol 404 1987 3.14 42
HTTP/1.1 https://example.com/index.html user@example.net""".split()

FRENCH = """à être été déjà français élève après côté fenêtre où là-bas cœur naïf garçon hôpital même très
père mère école forêt août leçon reçu pêche tête général différent l'été d'où aujourd'hui le la les des une
avec pour dans sur""".split()

GERMAN = """für über können müssen größer Straße schön Mädchen Tür früh Bücher Häuser zurück während
natürlich hören weiß heißt Füße Äpfel Öl Übung und der die das nicht mit sich auf ein dem von ist""".split()

SPANISH = """año niño mañana también después información está aquí corazón español difícil fácil árbol único
música él más según número país señor que los por con para una del pero""".split()

CZECH = """příliš žluťoučký kůň úpěl ďábelské ódy město člověk dítě může když řeka světlo večer být děkuji
náměstí že jsem také""".split()

POLISH = """zażółć gęślą jaźń łódź książka dziękuję proszę święto żółty źródło miłość być więcej się już
także przez nie jest""".split()

VIETNAMESE = """tiếng Việt người được không những một trong của nước thành phố đường học ngày cảm ơn xin
chào""".split()

RUSSIAN = """и в не на я быть он с что а по это она этот к но они мы весь который из у то за свой как
человек время год сказать мочь такой один рука жизнь день место съешь ещё мягких булок протокол сообщение""".split()

UKRAINIAN = """і в не на що це як від та або але є її його ще коли якщо людина життя день слово ґанок їжак
щастя мова країна річ вулиця""".split()

BULGARIAN = """и на да се от за са като но по във който това може човек година ден живот език щастие вода
път""".split()

CHINESE = """的 一 是 在 不 了 有 和 人 这 中 大 为 上 个 我们 时间 中国 世界 工作 问题 发展 经济 社会
文化 生活 学生 技术 信息 网络 计算机 互联网 人工智能 天气 朋友 老师 北京 上海 一心一意 画蛇添足 你好 谢谢 電腦
網路 臺灣 圖書館 2024 年 3 月 15 日""".split()

EMOJI = """😀 😁 😂 🤣 😃 😄 😅 😆 😉 😊 😋 😎 😍 😘 🥰 🤔 🙄 😴 🥳 😭 👍 👍🏽 👩‍💻 👨‍👩‍👧 ❤️ 🔥 ✨
🎉 🚀 ☕ 🇫🇷 🇯🇵 🏳️‍🌈 🐶 🐱 🌍 ✅ ❌ 💯 🙏""".split()

LATIN = FRENCH + GERMAN + SPANISH + CZECH + POLISH + VIETNAMESE
CYRILLIC = RUSSIAN + UKRAINIAN + BULGARIAN

# What is between words, those that are more often more than once.
SPACES = [" "] * 12 + [", ", ". ", "; ", ": ", "\n", " - ", "? ", "! "]
CHINESE_SPACES = [""] * 12 + ["，", "。", "、", "；", "：", "？", "！", "\n", " "]


class Kind(NamedTuple):
    name: str
    words: list[str]
    spaces: list[str]
    is_damaged: bool = False


KINDS = {
    "ascii": Kind("ASCII", ENGLISH, SPACES),
    "latin": Kind("Latin with accents", LATIN, SPACES),
    "cyrillic": Kind("Cyrillic", CYRILLIC, SPACES),
    "chinese": Kind("Chinese", CHINESE, CHINESE_SPACES),
    "emoji": Kind("words and emoji", ENGLISH + 3 * EMOJI, SPACES),
    "damaged": Kind("damaged, of all of these", ENGLISH + LATIN + CYRILLIC + CHINESE + 3 * EMOJI, SPACES, True),
}


class Texts(NamedTuple):
    """The texts of a kind, by their size."""

    large: list[bytes]
    small: list[bytes]
    tiny: list[bytes]


def below(disorder, count):
    """A number below another. Other calls of `random` may answer otherwise in another release of CPython."""
    return int(disorder.random() * count)


def words_of(disorder, kind, size):
    """At least so many octets of words in no order."""
    parts, total = [], 0
    while total < size:
        for choices in (kind.words, kind.spaces):
            part = choices[below(disorder, len(choices))].encode()
            parts.append(part)
            total += len(part)
    return b"".join(parts)


def damage(disorder, octets):
    """The octets with one in about 64 changed, left out, or after one that is ill-formed."""
    damaged = bytearray()
    for octet in octets:
        what = below(disorder, 256)
        if what == 0:
            damaged.append(below(disorder, 256))
        elif what == 1:
            damaged += bytes([b"\xff\xc0\x80\xe2\xf1\xed"[below(disorder, 6)], octet])
        elif what > 3:
            damaged.append(octet)
    return bytes(damaged)


def is_within(octets, place):
    """Whether a place is within a character."""
    return place < len(octets) and octets[place] & 0xC0 == 0x80


def cut(octets, begin, size, is_damaged):
    """So many octets from a place on, or fewer where the last character would be cut."""
    end = begin + size
    while not is_damaged and is_within(octets, end):
        end -= 1
    return octets[begin:end]


def pieces_of(octets, size, count, is_damaged):
    pieces, begin = [], 0
    for _ in range(count):
        pieces.append(cut(octets, begin, size, is_damaged))
        begin += len(pieces[-1])
    return pieces


def tiny_of(disorder, octets, is_damaged):
    """Texts of 5 octets from places in no order."""
    found = []
    while len(found) < TINY_COUNT:
        begin = below(disorder, len(octets) - TINY)
        if is_damaged or not (is_within(octets, begin) or is_within(octets, begin + TINY)):
            found.append(octets[begin : begin + TINY])
    return found


def texts_of(key):
    """The texts of a kind."""
    kind, disorder = KINDS[key], random.Random(key)
    octets = words_of(disorder, kind, LARGE + LARGE // 8)
    if kind.is_damaged:
        octets = damage(disorder, octets)
    whole = cut(octets, 0, LARGE, kind.is_damaged)
    small = pieces_of(whole, SMALL, SMALL_COUNT, kind.is_damaged)
    return Texts([whole], small, tiny_of(disorder, whole, kind.is_damaged))


def write_list(path, texts):
    path.write_bytes(b"".join(struct.pack(">I", len(text)) + text for text in texts))


def main():
    if len(sys.argv) != 2:
        sys.exit("texts.py FOLDER")
    folder = pathlib.Path(sys.argv[1])
    for key in KINDS:
        for size, texts in zip(("1m", "4k", "5"), texts_of(key)):
            write_list(folder / f"{key}-{size}", texts)
            shown = [text.decode(errors="replace").encode() for text in texts]
            write_list(folder / f"{key}-{size}-shown", shown)


if __name__ == "__main__":
    main()
