"""The broker of three maps, slow and plain: what `brokerd` must answer, byte for byte.

`connections.Server` takes pieces of bytes and returns replies; `lines.replay` runs the lines of a replay over one;
`requests.step` is one request. `state.py` has what a broker is.
"""
