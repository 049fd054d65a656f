"""What is counted, in the text form of Prometheus."""

from prometheus_client import CollectorRegistry, Counter, Gauge, Histogram, generate_latest

BUCKETS = (0.001, 0.0025, 0.005, 0.01, 0.025, 0.05, 0.1, 0.25, 0.5, 1.0, 2.5, 5.0, 10.0, 60.0)


class Metrics:
    """The counters and gauges of one server."""

    def __init__(self) -> None:
        self.registry = CollectorRegistry()
        registry = self.registry
        self.requests = Counter("cvwatch_requests", "Requests by route and status.", ["method", "route", "status"], registry=registry)
        self.seconds = Histogram("cvwatch_request_seconds", "Seconds until a request was answered.", ["route"], buckets=BUCKETS, registry=registry)
        self.connections = Gauge("cvwatch_connections", "Open connections.", registry=registry)
        self.rounds = Counter("cvwatch_rounds", "Rounds of the child.", registry=registry)
        self.lines = Counter("cvwatch_round_lines", "Requests to the child.", registry=registry)
        self.layers = Counter("cvwatch_layers_indexed", "Layers that the child indexed.", registry=registry)
        self.restarts = Counter("cvwatch_child_restarts", "How often the child was started again.", registry=registry)
        self.is_ready = Gauge("cvwatch_ready", "1 if the child can be asked.", registry=registry)
        self.images = Gauge("cvwatch_images", "Images by state.", ["state"], registry=registry)
        self.notifications = Gauge("cvwatch_notifications", "Notifications that are not acknowledged.", ["is_taken"], registry=registry)
        self.deliveries = Counter("cvwatch_webhook_posts", "Posts to the webhook by outcome.", ["outcome"], registry=registry)
        self.feed_age = Gauge("cvwatch_feed_age_seconds", "Seconds since a feed was last found fresh.", ["feed"], registry=registry)
        self.feed_records = Gauge("cvwatch_feed_records", "Records of a feed.", ["feed"], registry=registry)
        self.feed_failures = Counter("cvwatch_feed_failures", "Looks at a feed that failed.", ["feed"], registry=registry)

    def text(self) -> bytes:
        """All of them as text."""
        return bytes(generate_latest(self.registry))
