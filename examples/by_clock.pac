// Dates are left out of this language: this ends in a fault. `timeRange(0, 12)` says the same.
function FindProxyForURL(url, host) {
  return new Date().getHours() < 12 ? "PROXY morning.example.com:8080" : "DIRECT";
}
