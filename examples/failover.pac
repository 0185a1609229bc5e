// A list of proxies: each is to be tried where the one before it is down.
var proxies = "PROXY proxy1.example.com:8080; PROXY proxy2.example.com:8080; SOCKS socks.example.com:1080";

function FindProxyForURL(url, host) {
  if (!isResolvable(host))
    alert("no address for " + host);
  return proxies + "; DIRECT";
}
