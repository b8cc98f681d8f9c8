# Domain 1 has a ring for messages of domain 2. Domain 2 sends two, and there is room for one. Run it with `argo_run serial 0`.
argo 1
domain 1 pages 2
domain 2 pages 1

# Section 0: the ring stands at port 5, on page 1, with 48 slot bytes.
vcpu 1
ring at=0 port=5 partner=2 len=48 pages=1
expect 0

# Section 1: a body of 16 bytes from port 9 to port 5 of domain 1, as a message of type 7; and the same call once more.
vcpu 2
send from=9 to=1:5 body="hello, domain 1!" type=7
expect 16
op 3 0x20 0x30 1 7
expect -EAGAIN
