"""The certificate of a class that is open to the net: the school's, or one that is made once and kept
in the store."""

import hashlib
import ipaddress
import os
import ssl
import subprocess
import tempfile
from pathlib import Path

from .store import StoreError

DAYS = 825


def context(store, named, hosts):
    """The TLS of the server, and the fingerprint of its certificate; `named` is the school's file."""
    made = ssl.SSLContext(ssl.PROTOCOL_TLS_SERVER)
    made.minimum_version = ssl.TLSVersion.TLSv1_2
    if named:
        try:
            made.load_cert_chain(named)
            with open(named, encoding="ascii") as file:
                return made, fingerprint(file.read())
        except (OSError, ValueError) as why:
            raise StoreError(f"The certificate in {named} cannot be used: {why}.") from None
    if store.noted("certificate") is None:
        store.tell(certificate=_new(hosts))
    # The library reads a certificate from a file alone.
    with tempfile.NamedTemporaryFile("w", suffix=".pem") as file:
        file.write(store.noted("certificate"))
        file.flush()
        made.load_cert_chain(file.name)
    return made, fingerprint(store.noted("certificate"))


def fingerprint(pem):
    """The SHA-256 of the first certificate of a text, as browsers show it."""
    begin, end = "-----BEGIN CERTIFICATE-----", "-----END CERTIFICATE-----"
    first = pem[pem.index(begin) : pem.index(end) + len(end)]
    return hashlib.sha256(ssl.PEM_cert_to_DER_cert(first)).digest().hex(":").upper()


def _new(hosts):
    """A key and a certificate for these host names."""
    names = ",".join(f"{'IP' if _is_address(host) else 'DNS'}:{host}" for host in dict.fromkeys(hosts))
    with tempfile.TemporaryDirectory() as folder:
        key, certificate = os.path.join(folder, "key"), os.path.join(folder, "certificate")
        command = ["openssl", "req", "-x509", "-newkey", "ec", "-pkeyopt", "ec_paramgen_curve:prime256v1"]
        command += ["-nodes", "-days", str(DAYS), "-subj", "/CN=HELLO class", "-keyout", key]
        command += ["-out", certificate, "-addext", f"subjectAltName={names}"]
        try:
            subprocess.run(command, check=True, capture_output=True, text=True)
        except FileNotFoundError:
            raise StoreError("No certificate can be made: the program openssl is missing.") from None
        except subprocess.CalledProcessError as why:
            said = why.stderr.strip().splitlines()[-1:]
            raise StoreError(f"No certificate can be made: openssl says {' '.join(said)}.") from None
        return "".join(Path(path).read_text("ascii") for path in (certificate, key))


def _is_address(host):
    try:
        ipaddress.ip_address(host)
    except ValueError:
        return False
    return True
