# A send of two buffers, the second of which is past the sender's memory. Run it with `argo_run serial 0`.
argo 1
domain 1 pages 2
domain 2 pages 1
vcpu 1
ring at=0 port=5 partner=2 len=96 pages=1
expect 0
vcpu 2
send_addr at=0x20 src_aport=9 src_domain_id=2 dst_aport=5 dst_domain_id=1
bytes at=0x100 body="sixteen bytes..."
iov at=0x30 iov_hnd=0x100 iov_len=16
iov at=0x40 iov_hnd=0x1000 iov_len=16
op 3 0x20 0x30 2 7
expect -EFAULT

# Nothing was written into the ring. Xen 4.17 leaves the header and the first buffer in free slots:
# 300000000900000002000000070000007369787465656e2062797465732e2e2e. The tx word stays 0 in both.
vcpu 1
load 0x1040 32
expect 0000000000000000000000000000000000000000000000000000000000000000
load 0x1004 4
expect 00000000
