"""Verdicts of XDP and tc, by the kernel's names (linux/bpf.h, linux/pkt_cls.h), as bpfdb knows them."""

VERDICTS = {
    **{f'XDP_{name}': value for value, name in enumerate('ABORTED DROP PASS TX REDIRECT'.split())},
    **{f'TC_ACT_{name}': value for value, name in enumerate('OK RECLASSIFY SHOT PIPE STOLEN QUEUED REPEAT REDIRECT TRAP'.split())},
    # (-1, of 32 bits)
    'TC_ACT_UNSPEC': 0xffffffff,
}
