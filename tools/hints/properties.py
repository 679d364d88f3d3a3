"""What to look for where a required property fails, or where the list of required properties is refused."""

from hints.shown import meant

# What a no means, and what to change, as docs/using.md has it.
PROPERTIES = {
    'monotone': 'a label makes a route better, so two routers may have two stable states, which `gadget` shows; look'
                ' for an `lp` at the front of a `lex`, and for a table row that maps a value to a better one',
    'strict': 'a label makes a route no worse; with monotone labels there is one stable state all the same, so ask'
              ' whether monotone is enough; else raise the low number of a range from 0 to 1, or put a strict part'
              ' last, as in lex(.., add(1..1))',
    'isotone': 'a label does not keep the order of two routes; in a `lex`, parts that make different routes equal go'
               ' last, and parts that reject routes go first',
    'cancellative': 'a label makes two routes equally good that were not; by itself that does no harm, and as the first'
                    ' part of a `lex` it may be why that is not isotone: put it last',
    'total': 'a label rejects a route; look for a `cap`, a `guard`, a `deny` or a row to `none`',
}


def required_hint(name):
    """What to say of a required property that fails."""
    return f'{name} is required, and its line above says no: {PROPERTIES[name]} (docs/using.md, what each no means)'


def list_advice(text):
    """What is wrong with the word after --require."""
    *names, last = PROPERTIES
    form = f'LIST is one or more of {", ".join(names)} and {last}, separated by commas'
    seen = set()
    for it in text.split(','):
        if it == '':
            return f'{"a comma has no property beside it" if text else "the list is empty"}: {form}'
        if it != it.strip():
            return f'no space stands in the list: {form}'
        if it not in PROPERTIES:
            return f'`{it}` is no property{meant(it, PROPERTIES)}: {form}'
        if it in seen:
            return f'`{it}` stands there twice: {form}'
        seen.add(it)
    return form
