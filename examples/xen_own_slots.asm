# A domain sends to itself, out of the slots into which the message goes. All bytes are fetched before any is written: the body is the
# 16 zeros that stood there. Xen 4.17 writes the header first and copies then, so that the body is the header itself:
# 20000000090000000100000007000000. Run it with `argo_run serial 0`.
argo 1
domain 1 pages 2
vcpu 1
ring at=0 port=5 partner=1 len=96 pages=1
expect 0
send from=9 to=1:5 size=16 data=0x1040 type=7
expect 16
load 0x1050 16
expect 00000000000000000000000000000000
