function FindProxyForURL(url, host) {
  if (host.endsWith(".example.com")) return "DIRECT";
  return new Date().getHours() < 12 ? "PROXY a:80" : "PROXY b:80";
}
