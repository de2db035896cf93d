"""How deep a program can nest on a stack of 8 MiB, for levels.py and deep.py."""
import resource

STACK = 8 << 20
LIMIT = 140_000


def limit_stack():
    """Limits the stack of the process that is about to start."""
    resource.setrlimit(resource.RLIMIT_STACK, (STACK, STACK))


def deepest(succeeds_at, step):
    """Returns the greatest depth below LIMIT that succeeds, or up to `step` less, by halving; None if LIMIT succeeds too."""
    if succeeds_at(LIMIT):
        return None
    low, high = 0, LIMIT
    while high - low > step:
        middle = (low + high) // 2
        if succeeds_at(middle):
            low = middle
        else:
            high = middle
    return low


def print_depth(name, depth):
    """Prints the greatest depth of a kind of nesting, with the bytes of stack a level."""
    print(f"{name:20} {'at least ' + str(LIMIT) if depth is None else f'{depth:7} {STACK / max(depth, 1):5.0f}'}", flush=True)
