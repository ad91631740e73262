"""VAST and VMAP documents for tests, by the structure of the IAB's examples."""

EVENTS = ("start", "firstQuartile", "midpoint", "thirdQuartile", "complete")


def tracking(ad, at="http://track.example"):
    """The Tracking elements of an ad's quartiles, and others."""
    return "".join(f'<Tracking event="{it}"><![CDATA[{at}/{it}?ad={ad}]]></Tracking>' for it in (*EVENTS, "mute", "skip"))


def inline(ad, seconds=10, sequence=None, files=None, uid=None, at="http://track.example", number=None):
    """An Ad element with a linear creative."""
    place = "" if sequence is None else f' sequence="{sequence}"'
    files = files or f'<MediaFile delivery="progressive" type="video/mp4" width="640" height="360" bitrate="800"><![CDATA[http://media.example/{ad}.mp4]]></MediaFile>'
    uid = f'<UniversalAdId idRegistry="ad-id.org">{ad}</UniversalAdId>' if uid is None else uid
    return f"""<Ad id="{number or ad}"{place}><InLine><AdSystem version="1">x</AdSystem><AdTitle>{ad}</AdTitle>
<Impression id="i"><![CDATA[ {at}/impression?ad={ad} ]]></Impression><Error><![CDATA[{at}/error?ad={ad}&code=[ERRORCODE]]]></Error>
<Creatives><Creative id="c-{ad}" adId="a-{ad}" sequence="1">{uid}<Linear><Duration>00:00:{seconds:02d}</Duration><TrackingEvents>{tracking(ad, at)}</TrackingEvents>
<VideoClicks><ClickThrough><![CDATA[http://shop.example]]></ClickThrough></VideoClicks><MediaFiles>{files}</MediaFiles></Linear></Creative></Creatives></InLine></Ad>"""


def wrapper(tag, ad="w", sequence=None, more="", at="http://track.example"):
    """An Ad element with a Wrapper to the document at `tag`."""
    place = "" if sequence is None else f' sequence="{sequence}"'
    return f"""<Ad id="{ad}"{place}><Wrapper{more}><AdSystem>w</AdSystem><VASTAdTagURI><![CDATA[{tag}]]></VASTAdTagURI>
<Impression><![CDATA[{at}/impression?wrapper={ad}]]></Impression><Creatives><Creative><Linear><TrackingEvents>
<Tracking event="start"><![CDATA[{at}/start?wrapper={ad}]]></Tracking></TrackingEvents></Linear></Creative></Creatives></Wrapper></Ad>"""


def vast(*ads, version="4.2"):
    """A VAST document of these ads."""
    space = ' xmlns="http://www.iab.com/VAST" xmlns:xs="http://www.w3.org/2001/XMLSchema"' if version >= "3" else ""
    return f'<?xml version="1.0" encoding="UTF-8"?>\n<VAST version="{version}"{space}>{"".join(ads)}</VAST>\n'


def ad_break(offset, name, source, kind="linear"):
    """An AdBreak element of a VMAP document."""
    return (f'<vmap:AdBreak timeOffset="{offset}" breakType="{kind}" breakId="{name}"><vmap:AdSource id="s" allowMultipleAds="true" followRedirects="true">'
            f"{source}</vmap:AdSource></vmap:AdBreak>")


def data(*ads):
    """The source of a break that has its ads in it."""
    return f"<vmap:VASTAdData>{vast(*ads, version='3.0').partition('?>')[2].strip()}</vmap:VASTAdData>"


def tag(url):
    """The source of a break whose ads are elsewhere."""
    return f'<vmap:AdTagURI templateType="vast4"><![CDATA[{url}]]></vmap:AdTagURI>'


def vmap(*breaks):
    """A VMAP document of these breaks."""
    return f'<?xml version="1.0"?><vmap:VMAP xmlns:vmap="http://www.iab.net/videosuite/vmap" version="1.0">{"".join(breaks)}</vmap:VMAP>'


COMPANIONS = """<Creative sequence="1" AdID="601364-Companion"><CompanionAds><Companion width="300" height="250"><StaticResource creativeType="image/jpeg"><![CDATA[http://media.example/banner.jpg]]></StaticResource>
<TrackingEvents><Tracking event="creativeView"><![CDATA[http://track.example/companion]]></Tracking></TrackingEvents><CompanionClickThrough><![CDATA[http://shop.example]]></CompanionClickThrough><AltText>a shop</AltText>
<AdParameters xmlEncoded="false"><![CDATA[a=1]]></AdParameters></Companion><Companion width="728" height="90"><HTMLResource><![CDATA[<b>a & b</b>]]></HTMLResource></Companion></CompanionAds></Creative>"""
NON_LINEAR = """<Creative sequence="1" AdID="601364-NonLinear"><NonLinearAds><TrackingEvents><Tracking event="start"><![CDATA[http://track.example/overlay]]></Tracking></TrackingEvents>
<NonLinear width="300" height="60" minSuggestedDuration="00:00:15"><IFrameResource><![CDATA[http://media.example/overlay.html]]></IFrameResource></NonLinear></NonLinearAds></Creative>"""
ICONS = """<Icons><Icon program="AdChoices" width="20" height="20" xPosition="right" yPosition="top" duration="00:00:05" offset="00:00:00"><StaticResource creativeType="image/png"><![CDATA[http://media.example/i.png]]></StaticResource>
<IconClicks><IconClickThrough><![CDATA[http://choices.example]]></IconClickThrough></IconClicks><IconViewTracking><![CDATA[http://track.example/icon]]></IconViewTracking></Icon></Icons>"""
VERIFICATIONS = """<AdVerifications><Verification vendor="company.example-omid"><JavaScriptResource apiFramework="omid" browserOptional="true"><![CDATA[http://verify.example/omid.js]]></JavaScriptResource>
<TrackingEvents><Tracking event="verificationNotExecuted"><![CDATA[http://track.example/not-verified?r=[REASON]]]></Tracking></TrackingEvents><VerificationParameters><![CDATA[{"key":"it's"}]]></VerificationParameters></Verification></AdVerifications>"""


def whole(version, ad="CAR0001H"):
    """An Ad element with all that the IAB's examples of a `version` have beside a linear creative of 16 s, each in its place."""
    is_3, is_4 = version >= "3", version >= "4"
    head = ['<AdServingId>a532d16d-4d7f-4440-bd29-2ec0e693fc80</AdServingId>' if version >= "4.1" else "", '<Pricing model="cpm" currency="USD"><![CDATA[25.00]]></Pricing>' if is_3 else "",
            '<Category authority="https://www.iabtechlab.com/categoryauthority">AD CONTENT</Category>' if is_4 else "", "<Advertiser>a shop</Advertiser>" if is_3 else "", "<Expires>3600</Expires>" if version >= "4.1" else "",
            '<ViewableImpression id="1543"><Viewable><![CDATA[http://track.example/viewable]]></Viewable><NotViewable><![CDATA[http://track.example/not-viewable]]></NotViewable></ViewableImpression>' if is_4 else "",
            VERIFICATIONS if version >= "4.1" else ""]
    value = f' idValue="{ad}"' if version == "4.0" else ""
    uid = f'<UniversalAdId idRegistry="Ad-ID"{value}>{ad}</UniversalAdId>' if is_4 else ""
    name = 'adId="601364"' if is_4 else 'AdID="601364"'
    extra = (f'<Mezzanine id="m" delivery="progressive" type="video/mp4" width="1920" height="1080" codec="h264" fileSize="1000" mediaType="2D"><![CDATA[http://media.example/mezzanine.mp4]]></Mezzanine>'
             '<InteractiveCreativeFile type="text/html" apiFramework="SIMID" variableDuration="true"><![CDATA[http://media.example/simid.html]]></InteractiveCreativeFile>'
             '<ClosedCaptionFiles><ClosedCaptionFile type="text/vtt" language="en"><![CDATA[http://media.example/en.vtt]]></ClosedCaptionFile></ClosedCaptionFiles>' if version >= "4.1" else "")
    return f"""<Ad id="20001"{' adType="video"' if version >= "4.1" else ""}{' conditionalAd="false"' if version == "4.0" else ""}><InLine>{"".join(head)}<AdSystem version="4.0">iabtechlab</AdSystem><AdTitle><![CDATA[a shop]]></AdTitle><Description><![CDATA[what it sells]]></Description>
<Survey><![CDATA[http://track.example/survey]]></Survey><Error><![CDATA[http://track.example/error/[ERRORCODE]]]></Error><Impression id="one"><![CDATA[http://track.example/impression]]></Impression><Impression id="two"><![CDATA[http://track.example/impression2]]></Impression>
<Creatives>{COMPANIONS}{NON_LINEAR}<Creative id="5480" sequence="1" {name} apiFramework="none">{uid}<Linear{' skipoffset="00:00:05"' if is_3 else ""}><TrackingEvents><Tracking event="creativeView"><![CDATA[http://track.example/creativeView]]></Tracking>
{tracking(ad)}<Tracking event="progress" offset="00:00:10"><![CDATA[http://track.example/progress-10]]></Tracking></TrackingEvents><AdParameters xmlEncoded="true">&lt;a b=&quot;1&quot;/&gt;</AdParameters><Duration>00:00:16</Duration>
<MediaFiles>{extra}<MediaFile id="5241" delivery="progressive" type="video/mp4" bitrate="2000" width="1280" height="720" minBitrate="1500" maxBitrate="2500" scalable="true" maintainAspectRatio="true" codec="H.264"><![CDATA[http://media.example/720.mp4]]></MediaFile>
<MediaFile id="5244" delivery="progressive" type="video/mp4" bitrate="1000" width="854" height="480"><![CDATA[http://media.example/480.mp4]]></MediaFile><MediaFile delivery="streaming" type="video/x-flv" bitrate="500" width="400" height="300"><![CDATA[rtmp://media.example/x.flv]]></MediaFile>
</MediaFiles><VideoClicks><ClickThrough id="blog"><![CDATA[http://shop.example]]></ClickThrough><ClickTracking><![CDATA[http://track.example/click]]></ClickTracking><CustomClick><![CDATA[http://track.example/custom]]></CustomClick></VideoClicks>{ICONS if is_3 else ""}</Linear></Creative></Creatives>
<Extensions><Extension type="iab-Count"><total_available><![CDATA[2]]></total_available></Extension><Extension type="other"><a xmlns:x="urn:x" x:b="c"/></Extension></Extensions></InLine></Ad>"""
