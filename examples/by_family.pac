// By the network that the host's addresses are in, of IPv6 and of IPv4; hosts with IPv6 have a proxy that speaks it.
var office = ["10.0.0.0/8", "2001:db8:7::/48"];
var proxy4 = "PROXY proxy4.example.com:8080";
var proxy6 = "PROXY proxy6.example.com:8080";

function inOffice(addresses) {
  for (var i = 0; i < addresses.length; i++)
    for (var j = 0; j < office.length; j++)
      if (isInNetEx(addresses[i], office[j]))
        return true;
  return false;
}

function FindProxyForURLEx(url, host) {
  var found = dnsResolveEx(host);
  if (found == "")
    return "PROXY names.example.com:8080";
  if (inOffice(found.split(";")))
    return "DIRECT";
  return found.indexOf(":") < 0 ? proxy4 : proxy6 + "; " + proxy4;
}

// For browsers that don't look for the function above.
function FindProxyForURL(url, host) {
  return isInNet(host, "10.0.0.0", "255.0.0.0") ? "DIRECT" : proxy4;
}
