// Proxy settings of Example Ltd.
var office = "PROXY proxy1.example.com:8080; PROXY proxy2.example.com:8080; DIRECT";
var night = "PROXY batch.example.com:3128";

function inOffice(ip) {
  return isInNet(ip, "10.0.0.0", "255.0.0.0") ||
         isInNet(ip, "172.16.0.0", "255.240.0.0") ||
         isInNet(ip, "192.168.0.0", "255.255.0.0");
}

function FindProxyForURL(url, host) {
  host = host.toLowerCase();
  if (isPlainHostName(host) || dnsDomainIs(host, ".example.com"))
    return "DIRECT";
  if (shExpMatch(url, "ftp:*") || shExpMatch(host, "*.updates.example.net"))
    return night;
  var ip = dnsResolve(host);
  if (ip == null)
    return office;
  if (inOffice(ip))
    return "DIRECT";
  if (weekdayRange("SAT", "SUN", "GMT"))
    return night;
  return office;
}
