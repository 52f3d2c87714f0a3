"""Pictures of runs: logs of `rtxtool sim` and of relays in, a model of the run, and a drawing of it out."""
