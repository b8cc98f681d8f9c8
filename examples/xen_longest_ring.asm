# The longest ring that the header allows, 0x1000000 slot bytes, stands on 4,097 pages. Xen 4.17 takes at most 4,096 pages, so it
# answers EINVAL; the longest ring that it registers has 0xFFFFC0. Run it with `argo_run serial 0`.
argo 1
domain 1 pages 4608
domain 2 pages 1
vcpu 1
ring at=0x1001000 port=5 partner=2 len=0x1000000 pages=0..4096
expect 0
