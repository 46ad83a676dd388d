"""The keys of the teacher and the seats, and the cookies that hold them."""

import hmac
import secrets


def _octets(text):
    return text.encode("utf-8", "surrogatepass")


def new_keys(seats):
    """Keys for that many seats and the teacher, by place."""
    places = ["/teacher", *(f"/seat/{seat}" for seat in range(seats))]
    return {place: secrets.token_urlsafe(24) for place in places}


class Keys:
    """A random key for each place: "/teacher" and "/seat/0" and so on."""

    def __init__(self, keys, port, secure=False):
        self._keys = keys
        self._secure = secure
        # Cookies know no port: with one name, two servers on a machine would overwrite each other's.
        self._cookie = f"hello-{port}"

    def addresses(self, origin):
        """The places in order, each with its full address at an origin."""
        return {place: f"{origin}{place}?key={key}" for place, key in self._keys.items()}

    def right(self, place, key):
        """Whether this is the key of the place. No place and no key are wrong."""
        wanted = self._keys.get(place)
        if wanted is None or key is None:
            return False
        return hmac.compare_digest(_octets(wanted), _octets(key))

    def holds(self, place, request):
        """Whether the request has the place's cookie."""
        return self.right(place, request.cookies.get(self._cookie))

    def give(self, place, response):
        """Puts the place's key into a cookie of that path alone, until the browser ends."""
        cookie = {"path": place, "httponly": True, "samesite": "Strict", "secure": self._secure or None}
        response.set_cookie(self._cookie, self._keys[place], **cookie)
