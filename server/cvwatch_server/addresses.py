"""Which addresses the server connects to when a client names them: public ones, and those of the configured networks."""

import asyncio
import ipaddress
import socket
from typing import Any

from aiohttp.abc import AbstractResolver
from aiohttp.resolver import ThreadedResolver

from .configuration import Network

Address = ipaddress.IPv4Address | ipaddress.IPv6Address
# addresses of IPv4 are written in these networks of IPv6, by translators and tunnels
EMBEDDING = [ipaddress.ip_network(name) for name in ("64:ff9b::/96", "64:ff9b:1::/48", "2002::/16", "2001::/32", "::/96")]


class RefusedAddress(OSError):
    """The address is not one that may be connected to."""


def unwrapped(address: Address) -> Address:
    """The address of IPv4 that one of IPv6 stands for, where it is mapped."""
    mapped = address.ipv4_mapped if isinstance(address, ipaddress.IPv6Address) else None
    return mapped or address


def is_public(address: Address) -> bool:
    """Whether an address is that of one host which everybody can reach."""
    if address.is_multicast or address.is_reserved or address.is_unspecified or not address.is_global:
        return False
    return not any(address.version == network.version and address in network for network in EMBEDDING)


def is_allowed(text: str, networks: list[Network]) -> bool:
    """Whether the address of this text may be connected to."""
    try:
        address = unwrapped(ipaddress.ip_address(text.partition("%")[0]))
    except ValueError:
        return False
    return is_public(address) or any(address.version == network.version and address in network for network in networks)


def is_literal(host: str) -> bool:
    """Whether a host is written as an address, so that no resolver is asked."""
    try:
        ipaddress.ip_address(host.partition("%")[0])
    except ValueError:
        return False
    return True


class GuardedResolver(AbstractResolver):
    """Resolves names to the addresses that are allowed. A connection is made to what was checked, and to nothing else."""

    def __init__(self, networks: list[Network]):
        self.networks = networks
        self.resolver = ThreadedResolver(loop=asyncio.get_running_loop())

    async def resolve(self, host: str, port: int = 0, family: int = socket.AF_INET) -> list[dict[str, Any]]:
        """The allowed addresses of a name. Raises RefusedAddress if it has others alone."""
        found = await self.resolver.resolve(host, port, family)
        allowed = [entry for entry in found if is_allowed(entry["host"], self.networks)]
        if not allowed:
            raise RefusedAddress(f"{host} has no address that may be fetched from")
        return allowed

    async def close(self) -> None:
        """Ends the resolver."""
        await self.resolver.close()
