# Each structure of the header, field by field, and a page list. Run it with `argo_run serial 0`, and look at the bytes in the `store` lines.
argo 1
domain 1 pages 2
vcpu 1
addr at=0 aport=5 domain_id=1
send_addr at=0x10 src_aport=9 src_domain_id=1 dst_aport=5 dst_domain_id=2
iov at=0x20 iov_hnd=0x100 iov_len=64
register_ring at=0x30 aport=5 partner_id=any len=96
unregister_ring at=0x40 aport=5 partner_id=any
ring_head at=0x1000 rx_ptr=0 tx_ptr=32
ring_data at=0x50 nent=1
ring_data_ent at=0x58 aport=5 domain_id=1 space_required=64
message_header at=0x80 len=20 aport=9 domain_id=2 message_type=7
page_list at=0x90 pages=1,2..4
load 0x20 16
expect 00010000000000004000000000000000
