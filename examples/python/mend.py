"""mend.py OUT.jls COPY.jls..: joins damaged copies of one picture, and writes it as a file where each line is there."""
import sys

import jls_salvage


def partials(names):
    """What each copy gives. One that gives nothing is named."""
    for number, name in enumerate(names, 1):
        with open(name, "rb") as file:
            copy = file.read()
        try:
            yield jls_salvage.partial(copy, number)
        except jls_salvage.Error as why:
            print(f"{name}: {why}", file=sys.stderr)


def mend(out, names):
    found = list(partials(names))
    if not found:
        return 2
    picture = jls_salvage.lines(jls_salvage.join(*found))
    for component, line in picture.unsettled():
        print(f"component {component}, line {line}")
    if picture.unsettled():
        return 1
    with open(out, "wb") as file:
        file.write(jls_salvage.write(picture, picture.info.precision))
    return 0


def main(words):
    if len(words) < 2:
        print(__doc__, file=sys.stderr)
        return 2
    try:
        return mend(words[0], words[1:])
    except (jls_salvage.Error, OSError) as why:
        print(why, file=sys.stderr)
        return 2


if __name__ == "__main__":
    sys.exit(main(sys.argv[1:]))
