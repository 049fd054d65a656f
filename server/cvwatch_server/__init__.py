"""A server that answers registries over HTTP, after Clair v4, from a child `cvwatch`."""
