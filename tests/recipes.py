#!/usr/bin/env python3
"""recipes.py PROGRAM [--only WORD] [--scores N] [--seed N] [--self-test]: tries the recipes of the pages on scores as archives hold them.

The text of a recipe is what its page shows: commands, plans and scripts. Each is run on N scores (200 if nothing is said), made from
a seed, with PROGRAM as humpipe. What it prints must be the answer that plain Python works out from the score. Of a recipe that
differs the smallest score is printed that still does. Recipes that were wrong once are put back, and have to differ; --self-test does
only that. A command of these pages that is neither tried nor listed as an example fails. The last line is `recipes: N passed, M failed`. Status 1 if one failed."""
import argparse
import os
import sys

from recipes.covered import unlisted
from recipes.listed import listed
from recipes.music import Score
from recipes.running import Runs, differs
from recipes.smaller import smallest
from recipes.writing import made
from recipes.wrong import WRONG, put_back


def shown(wrong, text, seed):
    """A difference, with its score."""
    lines = [f'    on the score of seed {seed}, cut down:', *('        ' + line for line in text.decode('latin-1').splitlines())]
    for what, found in wrong.items():
        lines += [f'    {what}:', *('        ' + line for line in found[:40])]
    return '\n'.join(lines)


class Trial:
    """A recipe on all its scores."""

    def __init__(self, recipe, runs):
        self.recipe, self.runs = recipe, runs

    def difference(self, text, score):
        return differs(self.recipe, score, self.runs.run(self.recipe, [(text, score)])[0])

    def first(self, scores):
        """The first score on which it differs, and how."""
        self.recipe.read()
        for (seed, text, score), found in zip(scores, self.runs.run(self.recipe, [(text, score) for _, text, score in scores])):
            wrong = differs(self.recipe, score, found)
            if wrong is not None:
                return seed, text, wrong
        return None

    def check(self, scores):
        """The first difference, in words."""
        found = self.first(scores)
        if found is None:
            return None
        seed, text, wrong = found
        small = smallest(text, self.is_wrong)
        return shown(self.difference(small, Score(small)) or wrong, small, seed)

    def is_wrong(self, text, score):
        try:
            return self.difference(text, score) is not None
        except (LookupError, ValueError, StopIteration):
            return False


class Run:
    """A run of the script: its scores, and what passed."""

    def __init__(self, asked):
        self.asked, self.runs = asked, Runs(asked.program)
        self.kept, self.passed, self.failed = {}, 0, 0

    def scores(self, recipe, count):
        """The scores that a recipe can be asked of, made once for all recipes of the same wishes."""
        made_so_far = self.kept.setdefault(repr(sorted(recipe.wishes.items())), [])
        for number in range(len(made_so_far), count):
            seed = f'{self.asked.seed} {number}'
            text = made(seed, **recipe.wishes)
            made_so_far.append((seed, text, Score(text)))
        return made_so_far[:count]

    def tell(self, is_right, place, wrong):
        self.passed, self.failed = self.passed + is_right, self.failed + (not is_right)
        if not is_right:
            print(f'{place}\n{wrong}')

    def recipe(self, recipe):
        try:
            recipe.read()
            if recipe.lacks:
                print(f'left out: {recipe.page}: {recipe.name} (no {recipe.lacks})')
                return
            wrong = Trial(recipe, self.runs).check(self.scores(recipe, self.asked.scores))
        except LookupError as lacking:
            wrong = f'    {lacking.args[0]}'
        self.tell(wrong is None, f'{recipe.page}: {recipe.name}', wrong)

    def wrong_one(self, recipe, why):
        """A recipe that was wrong once is seen to be, on the first scores that show it."""
        trial, wrong = Trial(recipe, self.runs), f'    no score shows that {why}'
        try:
            for count in range(25, max(self.asked.scores, 200) + 1, 25):
                if trial.first(self.scores(recipe, count)[count - 25:]):
                    wrong = None
                    break
        except LookupError as lacking:
            wrong = f'    {lacking.args[0]}'
        self.tell(wrong is None, f'{recipe.page}: {recipe.name}, put back', wrong)

    def all(self):
        only, found = self.asked.only, {recipe.name: recipe for recipe in listed()}
        for name, recipe in found.items():
            if only in name and not self.asked.self_test:
                self.recipe(recipe)
        for name, texts, why in WRONG:
            if only in name:
                self.wrong_one(put_back(found[name], texts), why)
        if not only:
            for place, command in unlisted(found.values()):
                self.tell(False, place, f'    neither a recipe with an answer nor an example: {command}')
            self.passed += 1


def main():
    words = argparse.ArgumentParser(usage='%(prog)s PROGRAM [--only WORD] [--scores N] [--seed N] [--self-test]')
    words.add_argument('program')
    words.add_argument('--only', default='')
    words.add_argument('--scores', type=int, default=200)
    words.add_argument('--seed', default='humpipe')
    words.add_argument('--self-test', action='store_true')
    asked = words.parse_args()
    if not os.access(asked.program, os.X_OK):
        print(f'recipes.py: no program at {asked.program}\nrecipes: 0 passed, 1 failed')
        sys.exit(1)
    run = Run(asked)
    try:
        run.all()
    finally:
        run.runs.close()
    print(f'recipes: {run.passed} passed, {run.failed} failed')
    sys.exit(1 if run.failed else 0)


if __name__ == '__main__':
    main()
