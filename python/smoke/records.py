"""Records as Smoke writes and reads them: commas, line feeds, and quotes around fields with a comma, a quote or a line end."""
import csv

csv.field_size_limit(2**31 - 1)


class _Ends:
    """A file that gets each record with a line feed alone. The csv module quotes carriage returns only where they end records."""

    def __init__(self, file):
        self.file = file

    def write(self, record):
        self.file.write(record[:-2] + "\n")


def writer(file):
    """A csv writer to an open file."""
    return csv.writer(_Ends(file), lineterminator="\r\n")


def write_header(file, names):
    """Writes the first record of a file. A byte order mark that begins its first name would be dropped, if it stood at the front."""
    quoting = csv.QUOTE_ALL if names and str(names[0]).startswith("\ufeff") else csv.QUOTE_MINIMAL
    csv.writer(_Ends(file), lineterminator="\r\n", quoting=quoting).writerow(names)


def reader(lines, **more):
    """A csv reader over lines, with no limit on the length of a field."""
    return csv.reader(lines, **more)
