"""What a screen shows of a text that a person has written."""
import re

# What a terminal may act on: control characters, and marks that hide text or turn its direction.
ACTING = re.compile("[\x00-\x1f\x7f-\x9f\u061c\u200e\u200f\u202a-\u202e\u2066-\u2069"
                    "\u00ad\u200b\u2028\u2029\u2060-\u2064\ufeff\U000e0000-\U000e007f]")


def shown(text):
    """Returns a text as a screen shows it: what a terminal may act on stands there by its number."""
    return ACTING.sub(lambda found: f"\\u{{{ord(found[0]):x}}}", text)
