"""The way from Debian's mumble-server to a configuration: relay/from-murmurd."""
