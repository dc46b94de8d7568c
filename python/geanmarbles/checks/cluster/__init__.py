"""Several nodes over real etcd, whatever ends, stops or forgets."""
