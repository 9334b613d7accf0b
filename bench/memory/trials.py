"""A command of a history, run while memory is refused: what it may answer, and how what it leaves is completed."""
from kept.program import CheckFailed, expect
from kept.stores import is_whole, opened_copy
from kept.vaults import as_bytes, as_lines

MEMORY, OWN, OTHER = "memory", "own", "other"
OUT_OF_MEMORY = b"vaultdesk: out of memory\n"
NOTHING_OPEN = "vaultdesk: Q8 NothingOpen"
LOG = "vault.db-wal"
AGAIN = 10  # requests that are refused in processes of their own too
LOG_HEAD, EMPTY_LOG = 32, 41  # bytes of its head, and of one that has no more


def state_of(store):
    """What the files of a store have, by their names. The head of an empty log has numbers that are drawn anew each time
    the file is opened, and says nothing of what is kept."""
    found = dict(store)
    if len(found.get(LOG, b"")) == EMPTY_LOG:
        found[LOG] = found[LOG][LOG_HEAD:]
    return tuple(sorted(found.items()))


def put_store(vault, store):
    """A vault has these files of a store from here on, and no others."""
    vault.without_store()
    for name, data in store.items():
        vault.write(name, data)


class Trial:
    """A command of a history over what those before it left."""

    def __init__(self, bench, refusing, history, number, is_lasting):
        self.refusing, self.history, self.is_lasting = refusing, history, is_lasting
        self.step = history.steps[number - 1]
        self.words = self.step.words.split()
        self.vault, self.after = bench.empty(), bench.empty()
        for vault in (self.vault, self.after):
            history.write(vault)
        for step in history.steps[:number - 1]:
            self.vault.says(*step.words.split(), out=step.text, err=step.line)
        self.before = self.vault.store_bytes()
        # Of each state what is wrong with it, or none; and those whose texts are as they have to be.
        self.faults, self.compared = {}, set()
        self.own = self.alone(0)
        self.asked = refusing.asked()
        expect(f"{self.step.words}: what it says", self.expected(self.step.line), tuple(self.own))
        self.complete_store = state_of(self.vault.store_bytes())
        put_store(self.after, self.vault.store_bytes())
        self.texts = self.all_texts()

    def expected(self, line, status=0, text=None):
        """The status, text and line of this command, as they are compared."""
        return status, as_bytes(self.step.text if text is None else text), as_lines(line)

    def all_texts(self):
        """What each command for a text answers over what is complete."""
        return {words: tuple(self.after.run(*words.split())) for words in self.history.texts}

    def alone(self, number):
        """What the command answers in a process of its own whose n-th request is refused."""
        put_store(self.vault, self.before)
        return self.refusing.run(self.vault, self.words, number, self.is_lasting)

    def each(self, numbers):
        """Refuses requests one after another, each in a copy of one process: the number, how the command ended, its answer,
        and what is wrong with what it left, or none. A few are refused in processes of their own too, which end alike."""
        put_store(self.vault, self.before)
        again, answers = {*numbers[::max(1, len(numbers) // AGAIN)]}, {}
        for number, answer in self.refusing.each(self.vault, self.words, numbers, self.is_lasting):
            if number is None:
                expect(f"{self.step.words}, to which nothing was refused but to its copies: what it says", self.own, answer)
                expect("its store", self.complete_store, state_of(self.vault.store_bytes()))
                continue
            if number in again:
                answers[number] = answer
            yield number, *self.looked_at(answer)
        for number, answer in answers.items():
            expect(f"{self.step.words}, to which request {number} is refused alone: what it says", answer, self.alone(number))

    def one(self, number):
        """The same of one request, in a process of its own."""
        answer = self.alone(number)
        yield number, *self.looked_at(answer)

    def looked_at(self, answer):
        """How the command ended, its answer, and what is wrong with what it left, or none."""
        how, store = self.how_ended(answer), self.vault.store_bytes()
        key = state_of(store), how == OWN
        if key not in self.faults:
            self.faults[key] = self.fault_of(store, how == OWN)
        return how, answer, self.faults[key]

    def how_ended(self, answer):
        """Whether an answer is that of the command without a refusal, or that for want of memory, which has no text, and
        before its line such as the command writes without a refusal; or another one."""
        if answer == self.own:
            return OWN
        before = answer.err.removesuffix(OUT_OF_MEMORY)
        is_memory = answer.err.endswith(OUT_OF_MEMORY) and before in (b"", self.own.err)
        return MEMORY if is_memory and answer.status == 7 and answer.out == b"" else OTHER

    def fault_of(self, store, is_done):
        """What is wrong with a store that a command left, or none. Each way completes it; where the command was done, it
        is complete as it is."""
        try:
            for way in [()] if is_done else self.ways():
                put_store(self.after, store)
                self.complete(way)
                self.compare()
        except CheckFailed as found:
            return str(found)
        return None

    def ways(self):
        """The commands by which a store is completed: the same one, and of a window that may be open also `resume`."""
        yield (self.step.words,)
        if self.step.rows:
            yield "resume", self.step.words

    def complete(self, way):
        """Runs the commands of a way. Each may say that nothing was left to be done."""
        done = {self.expected(self.step.line), self.expected(self.step.again or self.step.line)}
        resumed = self.expected(f"resume: Loaded {self.step.rows}", text="")
        nothing = self.expected(NOTHING_OPEN, status=1, text="")
        for words in way:
            got = tuple(self.after.run(*words.split()))
            allowed = {resumed, nothing} if words == "resume" else done
            if got not in allowed:
                raise CheckFailed(f"{words} behind it\n    expected: one of {allowed}\n    got:      {got}")
            if got == resumed:
                done = {self.expected(self.step.again)}

    def compare(self):
        """Fails where SQLite finds a fault in the file, or where the texts are not those of a run without a refusal."""
        key = state_of(self.after.store_bytes())
        if key in self.compared:
            return
        if key:
            with opened_copy(self.after) as connection:
                is_whole(connection)
        for words, answer in self.all_texts().items():
            expect(f"{words} behind it", self.texts[words], answer)
        self.compared.add(key)
