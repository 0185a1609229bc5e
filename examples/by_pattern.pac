// By regular expressions, in the manner of templates that come with proxies.
var ours = /(^|\.)example\.(com|org)$/i;
var privateNet = /^(10|127|169\.254|192\.168|172\.(1[6-9]|2\d|3[01]))\.[\d.]+$/;
var cloud = /(^|\.)(mail|calendar|files-[a-z]{2}\d?)\.cloud\.example\.net$/;
var office = "PROXY proxy1.example.com:8080; PROXY proxy2.example.com:8080";

function proxyOf(country) {
  return "PROXY " + country.replace(/^(at|ch)$/, "de") + ".proxy.example.com:8080; " + office;
}

function FindProxyForURL(url, host) {
  if (isPlainHostName(host) || ours.test(host))
    return "DIRECT";
  if (privateNet.test(/^\d+(\.\d+){3}$/.test(host) ? host : dnsResolve(host)))
    return "DIRECT";
  if (cloud.test(host))
    return "PROXY cloud.example.com:8080; DIRECT";
  var archive = url.match(/\/archive\/(\d{4})\//);
  if (archive)
    return "PROXY archive-" + archive[1] + ".example.com:3128";
  if (url.search(/\.(iso|zip)(\?|$)/i) > 0)
    return "PROXY bulk.example.com:3128";
  var country = /\.([a-z]{2})$/.exec(host);
  return country ? proxyOf(country[1]) : office;
}
