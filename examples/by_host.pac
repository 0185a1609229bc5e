// By the name of the host: names of the company's own go direct, updates through a proxy of their own, and all else
// through the proxy of the office, or direct where that is down.
function FindProxyForURL(url, host) {
  if (isPlainHostName(host) || dnsDomainIs(host, ".example.com"))
    return "DIRECT";
  if (shExpMatch(host, "*.updates.example.net"))
    return "PROXY updates.example.com:3128";
  return "PROXY proxy.example.com:8080; DIRECT";
}
