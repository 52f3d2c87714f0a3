"""Captures: pcap and pcapng files in, the datagrams of RTP and RTCP in them as traces, and traces as pcap files."""
