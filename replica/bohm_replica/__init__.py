"""A replica: a ledger whose entries come from etcd, with a door for clients."""
