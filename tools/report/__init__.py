"""The parts of tools/vaultdesk-report, in reading order:

trouble     what ends a run: a line and a status
vault       the vault, by the commands of the program and its desk
mapping     the mapping as raw tables with columns, keys and what they mean
texts       CSV as the program writes it, and digests of rows
names       which names a database cannot take
views       the SQL of marts, histories and periods, common to both databases
taken       what a run takes out of a vault: each table's rows up to the last sealed window, and the stored snapshots
sqlite      a report in a SQLite file
psql        PostgreSQL by way of its program psql
postgres    a report in a schema of PostgreSQL
shards      the same over several servers
warehouse   several reports as one
compare     each mart of the program held to that of the report
words       the words of the command line
run         the commands, and how a run ends
"""
