"""One cube for a team, over HTTP: a session over a store that takes changes from many, and answers many, with nothing lost.

    python -m jackraisin.serve schema.toml market.csv --store sales.db --listen 127.0.0.1:8000

The command is all that there is of it. It needs aiohttp and prometheus-client.
"""
