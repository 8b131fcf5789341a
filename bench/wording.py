"""Numbers and amounts in words, as `check` says them."""


def grouped(number):
    return f'{number:,}'


def amount(number, one, many):
    return f'{grouped(number)} {one if number == 1 else many}'


def in_pairs(number, one, many, pairs):
    """the words end with `in`"""
    return f"{amount(number, one, many)} {amount(pairs, 'pair', 'pairs')}"


def of(part, whole):
    return f'{grouped(part)} of {grouped(whole)}'
