// Two proxies: the second one is for the time in which the first one is down. A batch says how they fared, and what
// failed in the last five minutes is tried last.
function FindProxyForURL(url, host) {
  return "PROXY proxy1.example.com:8080; SOCKS proxy2.example.com";
}
