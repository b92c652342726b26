"""lislab, a host and tools for a laboratory's line, over the binding `lislink`. Its floors, from below: `model`, `diagnosis`,
`field`, `host`, `outbound`, then `watch`, `play` and `analyzer`, and `cli`. Each imports only what is below it."""
