"""The checks of a crate in which each of its bodies comes to a verdict."""

import re

from bodies import texts_with, together

REFUSED, BY_SHAPE, ACCEPTED, NOT_TRIED = 'refused', 'by shape', 'accepted', 'not tried'
# What a proof file says of a name that the change took away, in the toolchain's words.
SHAPE = re.compile(r'has no field|is not in scope|has no `')
# A function that is not proved as another one is not.
WAITS = re.compile(r'(?:no proof:|not proved;) it (?:calls|passes)')


def failures_of(outcome, path, words):
    """Why a function is not proved, as far as that is by its own body; what is said of it where it
    only calls what is not proved is no such reason."""
    if words == 'proved':
        return []
    if words != 'not proved' and not WAITS.match(words):
        return [words, *outcome.errors_in_proof(path)]
    return outcome.errors_in_proof(path) or (outcome.errors_in_cycles(path) if words == 'not proved' else [])


def refused_for(reasons):
    """The verdict on what is refused for these reasons. Where each is that a proof names what is
    gone, the refusal says nothing of a contract."""
    first = next((it for it in reasons if not SHAPE.search(it)), None)
    return (REFUSED, first) if first else (BY_SHAPE, reasons[0])


def of_function(outcome, function):
    """What a check says of a function: a verdict and its words, or None where it says nothing of
    the function itself."""
    said = {path: words for path, words in outcome.functions.items() if function.is_at(path)}
    wrong = [it for path, words in said.items() for it in failures_of(outcome, path, words)]
    errors = [words for file, line, words in outcome.places if function.has_line(file, line) and words.startswith('error')]
    if wrong or (errors and outcome.has_judged):
        return refused_for(wrong + errors)
    if said and all(it == 'proved' for it in said.values()):
        return ACCEPTED, 'its function is proved'
    return None


def of_body(outcome, body):
    """What a check says of a body in it: the verdict on one of its functions, or None where it says
    nothing."""
    found = [it for it in (of_function(outcome, function) for function in body.functions) if it]
    refused = [it for kind in (REFUSED, BY_SHAPE) for it in found if it[0] == kind]
    if refused:
        return refused[0]
    return found[0] if found and len(found) == len(body.functions) else None


def of_whole(outcome):
    """What a check says of the one body in it, if that lies in no function: any goal that stays
    open refuses it."""
    if outcome.status == 0:
        return ACCEPTED, 'the crate is proved'
    wrong = [it for path, words in outcome.functions.items() for it in failures_of(outcome, path, words)]
    if not wrong and any(words == 'not proved' for words in outcome.functions.values()):
        # The error stands in a file of lemmas, as where the body changes a definition.
        wrong = [words for _, words in outcome.proofs if 'admitted' not in words]
    return refused_for(wrong) if wrong else None


def last_words(outcome):
    """The line of a check that says best why it came to nothing."""
    lines = [it for it in outcome.output.split('\n') if it.strip()]
    wrong = [it for it in lines if 'error' in it]
    return (wrong or lines or [f'status {outcome.status}'])[0][:300]


class Rounds:
    """Tries the bodies of a crate, as many in a check as can be told apart, until each has a
    verdict."""

    def __init__(self, copy, folder, bodies, keep):
        self.copy, self.folder, self.bodies, self.keep = copy, folder, bodies, keep
        self.count, self.verdicts = 0, {}

    def run(self):
        """The verdict on each body, by its label."""
        for body in self.bodies:
            if body.fault:
                self.settle(body, (NOT_TRIED, body.fault))
        self.try_many([it for it in self.left(self.bodies) if it.functions])
        for body in self.left(self.bodies):
            self.try_alone(body)
        return self.verdicts

    def left(self, bodies):
        return [it for it in bodies if it.label not in self.verdicts]

    def settle(self, body, verdict):
        self.verdicts[body.label] = verdict

    def check(self, bodies):
        """What a check says of the crate with these bodies. Where each lies in functions, the check
        looks at these alone."""
        functions = list(dict.fromkeys(it for body in bodies for it in body.functions)) if all(it.functions for it in bodies) else []
        outcome = self.copy.check_with(texts_with(self.folder, bodies), functions)
        self.count += 1
        if self.keep:
            names = ' '.join(it.name for it in bodies)
            (self.keep / f'{self.folder.name}.{self.count}').write_text(f'{names}\n{outcome.output}', encoding='utf-8')
        return outcome

    def try_many(self, bodies):
        """Tries bodies together, and those on which a check says nothing again after all others, as
        long as there comes a verdict; those that do not compile are left."""
        waiting, is_of_use = [], False
        while len(bodies) + len(waiting) > 1:
            if not bodies:
                if not is_of_use:
                    return
                bodies, waiting, is_of_use = waiting, [], False
            chosen = together(bodies)
            outcome = self.check(chosen)
            if outcome.has_judged:
                settled = self.judge(outcome, chosen)
                waiting += [it for it in chosen if it not in settled]
                is_of_use = is_of_use or bool(settled)
                done = chosen
            else:
                done = self.not_compiled(outcome, chosen)
                if not done:
                    return
            bodies = [it for it in bodies if it not in done]

    def judge(self, outcome, bodies):
        """Settles the bodies on which a check gives a verdict, and gives these."""
        found = {it.label: of_body(outcome, it) for it in bodies}
        settled = [it for it in bodies if found[it.label]]
        for body in settled:
            self.settle(body, found[body.label])
        return settled

    def not_compiled(self, outcome, bodies):
        """The bodies in whose functions a check that proved nothing found an error."""
        places = [(file, line) for file, line, _ in outcome.places]
        return [it for it in bodies if any(function.has_line(*place) for function in it.functions for place in places)]

    def try_alone(self, body):
        outcome = self.check([body])
        verdict = of_body(outcome, body) if body.functions else of_whole(outcome)
        unproved = [words for path, words in outcome.functions.items() if words != 'proved' and any(it.is_at(path) for it in body.functions)]
        if not verdict and unproved:
            verdict = REFUSED, unproved[0]
        if not verdict and outcome.status == 0:
            verdict = ACCEPTED, 'the crate is proved'
        self.settle(body, verdict or (NOT_TRIED, last_words(outcome)))
