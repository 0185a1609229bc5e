// By the time: at night, from 22 to 6, and at the weekend through the proxy for large transfers.
function FindProxyForURL(url, host) {
  if (weekdayRange("SAT", "SUN") || timeRange(22, 6))
    return "PROXY night.example.com:3128";
  return "PROXY proxy.example.com:8080";
}
