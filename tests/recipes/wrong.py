"""Recipes that were wrong once: put back into the page's text, each has to differ on some score."""
import copy

# the recipe, what is replaced in its commands and plans, and why that is wrong
WRONG = [
    ('one interval', {r"tr '\t' '\n' | grep -c '^[-+]M2$'": 'grep -c M2'}, 'it counts the meter *M2/4'),
    ('reach of the right hand', {"sed 's/$/ | extract -f 2/' examples/compass.hpl | humpipe /dev/stdin | grep -v '^[*!=]'":
                                 "humpipe examples/compass.hpl | grep '^[-.0-9]' | cut -f 2-"}, 'it drops records whose first column is a rest'),
    ('quarters', {'-t 8': '-t 4', ' | awk -v step=8 -v beat=4 -f examples/beats.awk': ''}, 'the grid begins with the upbeat'),
    ('intervals', {r"tr '\t' '\n' | grep '[0-9]'": r"grep -v '^\.'"}, 'it counts a record of a part that divides as one'),
    ('cadences', {'/;/': '/;[^ )]*$/'}, 'it misses a fermata under a slur'),
    ('outer voices', {'timebase -t 8 | extract -f 1': 'extract -f 1 | timebase -t 8'}, 'a split under a held note has no time of its own'),
    ('pc', {"awk '/[0-9]/ {": "awk '{"}, 'a rest is a c'),
    ('bars', {r"'^=\b'": "'^='"}, 'it loses what follows an unnumbered barline'),
]


def put_back(recipe, texts):
    """The recipe with these texts."""
    wrong = copy.copy(recipe)
    wrong.replaced = texts
    return wrong
