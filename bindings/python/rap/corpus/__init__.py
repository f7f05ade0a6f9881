"""The items of many files of Rust, in a database: the command `rap-corpus`.

`files` finds and reads the files, `items` takes the items from a tree, `work` is what a process does with a batch of
files, `store` is the database, `drive` gives the batches out and stores what comes back, and `command` is the command
line. Who runs the batches is a `concurrent.futures.Executor`: a pool of processes, or Dask's."""
