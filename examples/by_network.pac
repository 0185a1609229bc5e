// By the network that the host's address is in: those of the office go direct.
function inOffice(host) {
  return isInNet(host, "10.0.0.0", "255.0.0.0") || isInNet(host, "192.168.0.0", "255.255.0.0");
}

function FindProxyForURL(url, host) {
  if (inOffice(host))
    return "DIRECT";
  return isResolvable(host) ? "PROXY proxy.example.com:8080" : "PROXY names.example.com:8080";
}
