# What notify writes into an entry about a ring that is not there: twelve bytes of zeros. Xen 4.17 writes the flags alone, so there the
# load shows 0000 and then the ten bytes that stood there: 0000400000004d000000. Run it with `argo_run serial 0`.
argo 1
domain 1 pages 1
domain 2 pages 1
vcpu 2
ring_data at=0x100 nent=1
ring_data_ent at=0x108 aport=6 domain_id=1 flags=0xffff space_required=64 max_message_size=77
op 4 0x100 0 0 0
expect 0
load 0x110 12
expect 000000000000000000000000
