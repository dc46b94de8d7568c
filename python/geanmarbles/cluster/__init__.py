"""One site on several machines: a node over the history that etcd holds."""
