"""btfleet: asks one script of many recordings, on Dask's distributed scheduler, and merges what they answer."""
