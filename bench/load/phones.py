"""Makes a folder of dated full extracts of one feed that has several rows of each key: mapping.toml, wK.toml and wK_phones.csv.

    python3 bench/load/phones.py FOLDER --records N --windows W [--seed S]

N is about the number of records of a window: each customer has one to four phones, two and a half as a rule. From one
window to the next a phone of 5% of the customers has another number, 1% lose or get a phone, 2% vanish and as many are
new, a quarter of them such as vanished before. 5% of the keys are spelled in lower case and 2% with spaces round them,
one record in 1,000 stands twice, and the records come in no order. Equal arguments give equal bytes.
"""
import argparse
import pathlib
import random

KINDS = ["home", "work", "mobile", "fax"]
MAPPING = """[[hub]]
name = "customer"
parts = 1
[[feed]]
name = "phones"
source = "crm"
hub = "customer"
keys = [["CUST_NO"]]
sub = ["KIND"]
attrs = ["PHONE", "NOTE"]
"""
NOTES = ["", "after four", "weekdays, before noon", "ask for \"Bo\"", "Åse"]


def load_date(number):
    return f"2024-03-{number:02d}T02:00:00"


class Customers:
    """The phones of each customer by kind, and which customers are there."""

    def __init__(self, count, seed):
        self.random = random.Random(seed)
        self.phones, self.there, self.gone = [], [], []
        self.add(count)

    def phone(self):
        return str(self.random.randrange(20_000_000, 99_999_999)), self.random.choice(NOTES)

    def add(self, count):
        for _ in range(count):
            kinds = self.random.sample(KINDS, self.random.randrange(1, len(KINDS) + 1))
            self.there.append(len(self.phones))
            self.phones.append({kind: self.phone() for kind in kinds})

    def some(self, percent):
        return self.random.sample(self.there, max(1, len(self.there) * percent // 100))

    def come_and_go(self):
        vanished = self.some(2)
        left = set(vanished)
        self.there = [customer for customer in self.there if customer not in left]
        back = self.random.sample(self.gone, min(len(self.gone), len(vanished) // 4))
        self.gone = [customer for customer in self.gone if customer not in set(back)] + vanished
        self.there += back
        self.add(len(vanished) - len(back))

    def change(self):
        for customer in self.some(5):
            phones = self.phones[customer]
            phones[self.random.choice(list(phones))] = self.phone()
        for customer in self.some(1):
            phones, kind = self.phones[customer], self.random.choice(KINDS)
            if kind not in phones:
                phones[kind] = self.phone()
            elif len(phones) > 1:
                del phones[kind]

    def key(self, customer):
        text, spelling = f"C{customer:08d}", self.random.random()
        return text.lower() if spelling < 0.05 else f" {text}  " if spelling < 0.07 else text

    def records(self):
        rows = [(customer, kind, *phone) for customer in self.there for kind, phone in self.phones[customer].items()]
        rows += [self.random.choice(rows) for _ in range(len(rows) // 1000)]
        self.random.shuffle(rows)
        return [[self.key(customer), *fields] for customer, *fields in rows]


def quoted(text):
    return '"' + text.replace('"', '""') + '"' if "," in text or '"' in text else text


def write(folder, records, windows, seed):
    folder.mkdir(parents=True, exist_ok=True)
    (folder / "mapping.toml").write_text(MAPPING)
    customers = Customers(records * 2 // 5, seed)
    for number in range(1, windows + 1):
        if number > 1:
            customers.come_and_go()
            customers.change()
        lines = [["CUST_NO", "KIND", "PHONE", "NOTE"], *customers.records()]
        (folder / f"w{number}_phones.csv").write_text("".join(",".join(map(quoted, line)) + "\n" for line in lines))
        manifest = f'load = "{load_date(number)}"\n[[extract]]\nfeed = "phones"\nfile = "w{number}_phones.csv"\n'
        (folder / f"w{number}.toml").write_text(manifest)


def main():
    parser = argparse.ArgumentParser(description=__doc__, formatter_class=argparse.RawDescriptionHelpFormatter)
    parser.add_argument("folder", type=pathlib.Path)
    parser.add_argument("--records", type=int, required=True)
    parser.add_argument("--windows", type=int, default=4)
    parser.add_argument("--seed", type=int, default=1)
    given = parser.parse_args()
    write(given.folder, given.records, given.windows, given.seed)


if __name__ == "__main__":
    main()
