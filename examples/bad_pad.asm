# notify with a pad that is not 0. Entries before it are answered and stay so; later ones are not looked at. Run it with
# `argo_run serial 0`. Xen 4.17 looks at no pad here: there the reply is 0, and all three entries are answered.
argo 1
domain 1 pages 2
domain 2 pages 1

vcpu 1
ring at=0 port=5 partner=2 len=96 pages=1
expect 0

vcpu 2
let DATA = 0x100
ring_data at=DATA nent=3
ring_data_ent at=DATA+8 aport=5 domain_id=1 space_required=64
ring_data_ent at=DATA+28 aport=5 domain_id=1 space_required=16 pad=1
ring_data_ent at=DATA+48 aport=5 domain_id=1 space_required=16
op 4 DATA 0 0 0
expect -EINVAL
# The first answer: flags EXISTS, EMPTY and SUFFICIENT (13), pad 0, the size asked for, the largest size.
load DATA+16 12
expect 0d0000004000000040000000
load DATA+36 12
expect 000001001000000000000000
load DATA+56 12
expect 000000001000000000000000
# A pad of the head, before any entry.
ring_data at=DATA nent=1 pad=1
op 4 DATA 0 0 0
expect -EINVAL
