// Proxies by lists of domains, each list in one text, as companies keep them.
var direct = "example.com example.net intranet.example.org".split(" ");
var proxies = [
  "news.example.org weather.example.org = PROXY news.example.com:8080",
  "video.example.org = PROXY video.example.com:8080; DIRECT"
];

// Whether a host is one of the domains, or lies in one.
function isIn(host, domains) {
  for (var i = 0; i < domains.length; i++) {
    var start = host.length - domains[i].length;
    if (host.substring(start) == domains[i] && (start == 0 || host.charAt(start - 1) == "."))
      return true;
  }
  return false;
}

function FindProxyForURL(url, host) {
  host = host.toLowerCase();
  if (host.indexOf(".") < 0 || isIn(host, direct))
    return "DIRECT";
  for (var i = 0; i < proxies.length; i++) {
    var parts = proxies[i].split(" = ");
    if (isIn(host, parts[0].split(" ")))
      return parts[1];
  }
  if (url.substring(0, url.indexOf(":")) == "ftp")
    return "PROXY ftp.example.com:2121";
  return "PROXY proxy.example.com:8080; DIRECT";
}
